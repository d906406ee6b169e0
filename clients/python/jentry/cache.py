"""The client for threads."""
from __future__ import annotations

from types import TracebackType
from typing import Callable, Dict, Iterable, Optional, Type, TypeVar

import jentry_processors
from jentry import requests
from jentry import stream as streams
from jentry.errors import WrongArgument
from jentry.exchange import Exchanges, Processors
from jentry.requests import Answer, Class, Outcome, Request
from jentry.rounds import Round
from jentry.stream import Address, Deadline, Reader, Stream, Writer
from jentry.tables import MOST_JOBS

T = TypeVar("T")
Timeout = Optional[float]
"""Seconds, or None for the timeout of the cache. Those of math.inf are no limit."""


def most_requests(number: int) -> int:
    """Returns a number of requests that a round may have. Raises WrongArgument for another number."""
    if not 1 <= number <= MOST_JOBS:
        raise WrongArgument(f"requests={number}: a round has 1 to {MOST_JOBS} requests")
    return number


def processor_file(name: str) -> bytes:
    """Returns the class file of a built-in processor."""
    try:
        return jentry_processors.file(name)
    except FileNotFoundError as e:
        raise WrongArgument(str(e)) from None


class Cache:
    """A connection to a server. Its methods block until the reply arrives, and may be called by many threads.

    A call takes at most its `timeout` in seconds, by default that of the cache, and raises TimedOut then. It raises NotSent if the stream had
    ended before, and OutcomeUnknown if the stream ended before the reply came."""

    def __init__(self, reader: Reader, writer: Writer, close: Callable[[], None]) -> None:
        """Makes a cache over two binary files, one to read from and one to write to. `close` is called to end the stream. Timeouts of calls need files
        that don't block."""
        self._set_up(lambda _: Stream(reader, writer, close), None, MOST_JOBS, None)

    def _set_up(
        self, open_stream: Callable[[Deadline], Stream], timeout: Timeout, most: int, patience: Optional[float]
    ) -> None:
        self._timeout, self._processors = timeout, Processors()
        self._exchanges = Exchanges(open_stream, most_requests(most), patience)
        self._exchanges.open(Deadline(timeout))

    @classmethod
    def start(cls, *command: str, timeout: Timeout = None) -> Cache:
        """Starts a private server by its command, `jentry serve` by default, and returns a Cache of it. Closing the Cache ends the server, and its
        entries are lost. Raises NotConnected if the program can't be started."""
        cache = cls.__new__(cls)
        cache._set_up(lambda _: streams.start(command), timeout, MOST_JOBS, None)
        return cache

    @classmethod
    def connect(
        cls, address: Address, *, timeout: Timeout = None, reconnect: Optional[float] = None, requests: int = MOST_JOBS
    ) -> Cache:
        """Connects to a shared server at the path of a unix socket or at (host, port), and returns a Cache of it.

        Raises NotConnected on failure, and TimedOut after `timeout` seconds, which are also the limit of each call. With `reconnect` the first call
        after the end of the stream connects again, and defines the classes of this cache again; it tries for that many seconds (with 0 once). The
        new server may have lost its entries. A call that was sent is never sent again. `requests` is the most that are sent in one round: a front
        with the option --requests takes no more."""
        if reconnect is not None and not reconnect >= 0:
            raise WrongArgument(f"reconnect={reconnect}: it has to be at least 0 seconds, or None")
        cache = cls.__new__(cls)
        cache._set_up(lambda deadline: streams.connect(address, deadline), timeout, requests, reconnect)
        return cache

    @property
    def reconnections(self) -> int:
        """How often this cache has connected again. A change means that the server may have lost entries."""
        return self._exchanges.reconnections

    def close(self) -> None:
        """Ends the stream. Waiting calls and later ones raise StreamEnded. A second call does nothing."""
        self._exchanges.close()

    def __enter__(self) -> Cache:
        return self

    def __exit__(
        self, kind: Optional[Type[BaseException]], error: Optional[BaseException], trace: Optional[TracebackType]
    ) -> None:
        self.close()

    def round(self, *, timeout: Timeout = None) -> Round:
        """Returns a Round, a batch of requests: `with cache.round() as r: ..`. The timeout begins at the end of the block."""
        return Round(self.processor, lambda calls: self._exchanges.make(calls, self._deadline(timeout)))

    def processor(self, name: str, *, timeout: Timeout = None) -> Class:
        """Returns the Class of a built-in processor, such as "GetAndPut". Defines it at its first use on this stream."""
        return self._processor(name, self._deadline(timeout))

    def _processor(self, name: str, deadline: Deadline) -> Class:
        return self._processors.get(name, lambda: self._ask(requests.define(processor_file(name)), deadline), deadline)

    def _deadline(self, timeout: Timeout) -> Deadline:
        return Deadline(self._timeout if timeout is None else timeout)

    def _ask(self, request: Request[T], deadline: Deadline) -> T:
        answer = Answer(request)
        self._exchanges.make([(request, answer)], deadline)
        return answer.result()

    def define(self, file: bytes, *, timeout: Timeout = None) -> Class:
        """Has the server verify a class file, given as bytes, and returns a Class for `invoke` and `invoke_all`. Raises Refused if it isn't
        accepted."""
        return self._ask(requests.define(file), self._deadline(timeout))

    def put(self, key: int, value: int, *, timeout: Timeout = None) -> None:
        """Sets the value of a key."""
        return self._ask(requests.put(key, value), self._deadline(timeout))

    def get(self, key: int, *, timeout: Timeout = None) -> Optional[int]:
        """Returns the value of a key, or None if it has no entry. Raises ProcessorThrew if the server's loader fails."""
        return self._ask(requests.get(key), self._deadline(timeout))

    def remove(self, key: int, *, timeout: Timeout = None) -> bool:
        """Removes the entry of a key. Returns whether there was one."""
        return self._ask(requests.remove(key), self._deadline(timeout))

    def contains(self, key: int, *, timeout: Timeout = None) -> bool:
        """Returns whether a key has an entry."""
        return self._ask(requests.contains(key), self._deadline(timeout))

    def invoke(self, key: int, processor: Class, *arguments: Optional[int], timeout: Timeout = None) -> Optional[int]:
        """Runs a processor, a Class of this stream, on the entry of a key. Returns its result, or raises ProcessorThrew if it threw."""
        return self._ask(requests.invoke(key, processor, arguments), self._deadline(timeout))

    def invoke_all(
        self, keys: Iterable[int], processor: Class, *arguments: Optional[int], timeout: Timeout = None
    ) -> Dict[int, Outcome]:
        """Runs a processor once on the entry of each distinct key, of at most 4,096.

        Returns a dict of the results by key. It leaves out the keys whose result is null. For a key on which the processor threw or wasn't run, the
        value is the ProcessorThrew or Denied object."""
        return self._ask(requests.invoke_all(keys, processor, arguments), self._deadline(timeout))

    def get_and_put(self, key: int, value: int, *, timeout: Timeout = None) -> Optional[int]:
        """Sets the value of a key. Returns the previous value, or None."""
        return self._run(key, "GetAndPut", timeout, value)

    def put_if_absent(self, key: int, value: int, *, timeout: Timeout = None) -> bool:
        """Sets the value of a key that has no entry. Returns whether it did."""
        return bool(self._run(key, "PutIfAbsent", timeout, value))

    def remove_if(self, key: int, old: int, *, timeout: Timeout = None) -> bool:
        """Removes the entry of a key if its value is `old`. Returns whether it did."""
        return bool(self._run(key, "RemoveIf", timeout, old))

    def get_and_remove(self, key: int, *, timeout: Timeout = None) -> Optional[int]:
        """Removes the entry of a key. Returns the previous value, or None."""
        return self._run(key, "GetAndRemove", timeout)

    def replace_if(self, key: int, old: int, value: int, *, timeout: Timeout = None) -> bool:
        """Sets the value of a key if its current value is `old`. Returns whether it did."""
        return bool(self._run(key, "ReplaceIf", timeout, old, value))

    def replace(self, key: int, value: int, *, timeout: Timeout = None) -> bool:
        """Sets the value of a key that has an entry. Returns whether it did."""
        return bool(self._run(key, "Replace", timeout, value))

    def get_and_replace(self, key: int, value: int, *, timeout: Timeout = None) -> Optional[int]:
        """Sets the value of a key that has an entry. Returns the previous value, or None."""
        return self._run(key, "GetAndReplace", timeout, value)

    def _run(self, key: int, name: str, timeout: Timeout, *arguments: int) -> Optional[int]:
        deadline = self._deadline(timeout)
        return self._ask(requests.invoke(key, self._processor(name, deadline), arguments), deadline)
