"""Rounds of requests, as a user makes them."""
from __future__ import annotations

from types import TracebackType
from typing import Any, Callable, Dict, Iterable, List, Optional, Tuple, Type, TypeVar

from jentry import requests
from jentry.errors import WrongArgument
from jentry.requests import Answer, Class, Outcome, Request
from jentry.tables import MOST_JOBS

T = TypeVar("T")
Calls = List[Tuple[Request[Any], Answer[Any]]]


class Round:
    """Requests that are sent together at the end of the `with` block, and run in any order. If the block raises, none is sent.

    The methods are those of a Cache. Each returns an Answer, whose `result()` is available after the block. The block's end raises StreamEnded or
    TimedOut if the replies didn't come. A round has at most 4,096 jobs, where a define counts as none, an invoke_all as one for each key, and any
    other request as one. A method raises WrongArgument for more."""

    def __init__(self, processor: Callable[[str], Class], make: Callable[[Calls], None]) -> None:
        self._processor, self._make, self.jobs = processor, make, 0
        self._calls: Calls = []

    def _add(self, request: Request[T]) -> Answer[T]:
        if self.jobs + request.jobs > MOST_JOBS:
            raise WrongArgument(f"a round has at most {MOST_JOBS} jobs")
        self.jobs += request.jobs
        answer = Answer(request)
        self._calls.append((request, answer))
        return answer

    def __enter__(self) -> Round:
        return self

    def __exit__(
        self, kind: Optional[Type[BaseException]], error: Optional[BaseException], trace: Optional[TracebackType]
    ) -> None:
        if kind is None and self._calls:
            self._make(self._calls)

    def define(self, file: bytes) -> Answer[Class]:
        """Has the server verify a class file."""
        return self._add(requests.define(file))

    def put(self, key: int, value: int) -> Answer[None]:
        """Sets the value of a key."""
        return self._add(requests.put(key, value))

    def get(self, key: int) -> Answer[Optional[int]]:
        """Gets the value of a key, or None."""
        return self._add(requests.get(key))

    def remove(self, key: int) -> Answer[bool]:
        """Removes the entry of a key."""
        return self._add(requests.remove(key))

    def contains(self, key: int) -> Answer[bool]:
        """Asks whether a key has an entry."""
        return self._add(requests.contains(key))

    def invoke(self, key: int, processor: Class, *arguments: Optional[int]) -> Answer[Optional[int]]:
        """Runs a processor on the entry of a key."""
        return self._add(requests.invoke(key, processor, arguments))

    def invoke_all(
        self, keys: Iterable[int], processor: Class, *arguments: Optional[int]
    ) -> Answer[Dict[int, Outcome]]:
        """Runs a processor once on the entry of each distinct key."""
        return self._add(requests.invoke_all(keys, processor, arguments))

    def get_and_put(self, key: int, value: int) -> Answer[Optional[int]]:
        """Sets the value of a key, and gets the previous one."""
        return self.invoke(key, self._processor("GetAndPut"), value)

    def put_if_absent(self, key: int, value: int) -> Answer[bool]:
        """Sets the value of a key that has no entry."""
        return self._flag(key, "PutIfAbsent", value)

    def remove_if(self, key: int, old: int) -> Answer[bool]:
        """Removes the entry of a key if its value is `old`."""
        return self._flag(key, "RemoveIf", old)

    def get_and_remove(self, key: int) -> Answer[Optional[int]]:
        """Removes the entry of a key, and gets the previous value."""
        return self.invoke(key, self._processor("GetAndRemove"))

    def replace_if(self, key: int, old: int, value: int) -> Answer[bool]:
        """Sets the value of a key if its current value is `old`."""
        return self._flag(key, "ReplaceIf", old, value)

    def replace(self, key: int, value: int) -> Answer[bool]:
        """Sets the value of a key that has an entry."""
        return self._flag(key, "Replace", value)

    def get_and_replace(self, key: int, value: int) -> Answer[Optional[int]]:
        """Sets the value of a key that has an entry, and gets the previous one."""
        return self.invoke(key, self._processor("GetAndReplace"), value)

    def _flag(self, key: int, name: str, *arguments: int) -> Answer[bool]:
        return self._add(requests.invoke_flag(key, self._processor(name), arguments))
