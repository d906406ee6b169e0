"""A stream of rounds to and from a server, in an event loop."""
from __future__ import annotations

import asyncio
from collections import deque
from typing import Any, Awaitable, Callable, Deque, List, Optional, Tuple, TypeVar

from jentry.errors import Error, NotConnected, NotSent, OutcomeUnknown, StreamEnded, TimedOut
from jentry.exchange import FIRST_PAUSE, LONGEST_PAUSE
from jentry.requests import END, ENDED, Answer, Class, Classes, Request, read_answer, rounds_of
from jentry.stream import LOST, Address, Deadline
from jentry.tables import DEFINE, LONGEST, MOST_JOBS

T = TypeVar("T")
Timeout = Optional[float]
"""Seconds, or None for the timeout of the cache. Those of math.inf are no limit."""
Pipes = Tuple[asyncio.StreamReader, asyncio.StreamWriter]
MOST_OUT = 2


async def by_timeout(work: Callable[[], Awaitable[T]], timeout: Timeout) -> T:
    """Waits for what sends nothing. Raises TimedOut at the end of the timeout."""
    left = Deadline(timeout).left()
    try:
        return await asyncio.wait_for(work(), left)
    except asyncio.TimeoutError:
        raise TimedOut(False) from None


class Opener:
    """Opens connections to an address."""

    def __init__(self, address: Address) -> None:
        self._address = address

    async def open(self) -> Pipes:
        """Connects. Raises NotConnected on failure."""
        try:
            if isinstance(self._address, tuple):
                return await asyncio.open_connection(*self._address)
            return await asyncio.open_unix_connection(self._address)
        except OSError as e:
            raise NotConnected(e.errno, f"no connection to {self._address}: {e.strerror or e}") from e


class _Call:
    """A request, its answer, and the future that waits for it."""

    __slots__ = ("request", "answer", "future", "timer", "is_sent")

    def __init__(self, request: Request[Any], future: asyncio.Future[Any]) -> None:
        self.request, self.answer, self.future = request, Answer(request), future
        self.timer: Optional[asyncio.TimerHandle] = None
        self.is_sent = False

    def settle(self) -> None:
        """Resolves the future with the answer."""
        try:
            told = self.answer.result()
        except Error as e:
            self.fail(e)
        else:
            self.stop()
            if not self.future.done():
                self.future.set_result(told)

    def fail(self, error: Error) -> None:
        """Resolves the future with an error."""
        self.stop()
        if not self.future.done():
            self.future.set_exception(error)

    def stop(self) -> None:
        """Ends the call's timer."""
        if self.timer:
            self.timer.cancel()


class Stream:
    """Calls that wait, and rounds of them that are out. With an opener and patience it connects again after an end, when a call comes."""

    def __init__(
        self,
        reader: asyncio.StreamReader,
        writer: asyncio.StreamWriter,
        opener: Optional[Opener],
        most: int,
        patience: Optional[float],
    ) -> None:
        self._in, self._out = reader, writer
        self._waiting: Deque[_Call] = deque()
        self._sent: Deque[List[_Call]] = deque()
        self._broken, self._is_due, self._is_up = "", False, True
        self._classes, self.reconnections = Classes(), 0
        self.set_options(opener, most, patience)
        self._reading = asyncio.ensure_future(self._read())
        self._opening: Optional[asyncio.Future[None]] = None

    def set_options(self, opener: Optional[Opener], most: int, patience: Optional[float]) -> None:
        """Sets how the stream is opened again, and the most requests of a round."""
        self._opener, self._most, self._patience = opener, most, patience

    def ask(self, request: Request[T], timeout: Timeout) -> asyncio.Future[T]:
        """Puts a request into the queue, and returns its future."""
        loop = asyncio.get_running_loop()
        left = Deadline(timeout).left()
        future: asyncio.Future[T] = loop.create_future()
        call = _Call(request, future)
        if self._broken:
            call.fail(NotSent(f"{self._broken}, and the call wasn't sent"))
            return future
        self._waiting.append(call)
        if left is not None:
            call.timer = loop.call_later(left, self._expire, call)
        self._plan()
        return future

    def _expire(self, call: _Call) -> None:
        """Ends a call at its timeout. One that waits isn't sent any more."""
        call.fail(TimedOut(call.is_sent))

    def _is_wanted(self) -> bool:
        """Returns whether a call waits. Drops those at the front that were cancelled or have timed out."""
        while self._waiting and self._waiting[0].future.done():
            self._waiting.popleft()
        return bool(self._waiting)

    def _plan(self) -> None:
        """Schedules a send for the end of this loop iteration, so that calls made together are sent together. At most MOST_OUT rounds are in
        flight."""
        if self._broken or not self._is_wanted():
            return
        if not self._is_up:
            if self._opening is None or self._opening.done():
                self._opening = asyncio.ensure_future(self._open_again())
        elif not self._is_due and len(self._sent) < MOST_OUT:
            self._is_due = True
            asyncio.get_running_loop().call_soon(self._send)

    def _send(self) -> None:
        self._is_due = False
        if self._broken or not self._is_up:
            return self._plan()
        if self._in.at_eof() or self._out.is_closing():
            return self._fail(LOST)
        sent: List[_Call] = []
        jobs = 0
        while self._waiting and len(sent) < self._most and jobs + self._waiting[0].request.jobs <= MOST_JOBS:
            call = self._waiting.popleft()
            if not call.future.done():
                jobs += call.request.jobs
                call.is_sent = True
                sent.append(call)
        if sent:
            self._sent.append(sent)
            self._out.write(b"".join([call.request.frame() for call in sent]) + END)
        self._plan()

    async def _read(self) -> None:
        """Reads the replies, round by round. Futures are resolved after the end of their round was read. The reply to a cancelled call is dropped,
        and no other call gets it."""
        try:
            while True:
                text = await _frame(self._in)
                if not self._sent:
                    raise StreamEnded("the server told a reply to no request")
                for call in self._sent[0]:
                    call.answer._tell(self._kept(call.request, read_answer(call.request, text)))
                    text = await _frame(self._in)
                if text != ENDED:
                    raise StreamEnded("the server told more replies than there were requests")
                for call in self._sent.popleft():
                    call.settle()
                self._plan()
        except StreamEnded as e:
            self._fail(str(e))
        except (OSError, EOFError):
            self._fail(LOST)

    def _kept(self, request: Request[Any], told: object) -> object:
        if self._opener and request.kind == DEFINE and isinstance(told, Class):
            return self._classes.keep(request.file, told)
        return told

    def _fail(self, why: str) -> None:
        """Ends the stream. Calls that were sent end by OutcomeUnknown; the others wait for another stream, or end by NotSent."""
        for sent in self._sent:
            for call in sent:
                call.fail(OutcomeUnknown(why))
        self._sent.clear()
        if self._opener and self._patience is not None and not self._broken:
            if self._is_up:
                self._is_up = False
                self._out.close()
            self._plan()
        else:
            self._broken = self._broken or "the stream has ended"
            self._fail_waiting(NotSent(f"{self._broken}, and the call wasn't sent"))

    def _fail_waiting(self, error: Error) -> None:
        for call in self._waiting:
            call.fail(error)
        self._waiting.clear()

    async def _open_again(self) -> None:
        """Opens another stream, and defines all classes on it. Tries again while there is patience and a call waits, with pauses that grow."""
        limit, pause = Deadline(self._patience or None), FIRST_PAUSE
        while self._opener and self._is_wanted():
            try:
                reader, writer = await self._opener.open()
                try:
                    await self._define_all(reader, writer)
                except BaseException:
                    writer.close()
                    raise
            except (StreamEnded, OSError, EOFError) as e:
                if not self._patience or limit.left() == 0:
                    return self._fail_waiting(NotConnected(None, f"the stream ended, and there is no other: {e}"))
                await asyncio.sleep(min(it for it in (pause, limit.left()) if it is not None))
                pause = min(2 * pause, LONGEST_PAUSE)
                continue
            self._in, self._out, self._is_up, self.reconnections = reader, writer, True, self.reconnections + 1
            self._reading = asyncio.ensure_future(self._read())
            return self._plan()

    async def _define_all(self, reader: asyncio.StreamReader, writer: asyncio.StreamWriter) -> None:
        """Defines the classes on a new stream. Calls of a class that is no longer accepted are denied by the server as UnknownClass."""
        for definitions in rounds_of(self._classes.definitions(), self._most):
            writer.write(b"".join([it.frame() for it in definitions]) + END)
            for it in definitions:
                self._kept(it, read_answer(it, await _frame(reader)))
            if await _frame(reader) != ENDED:
                raise StreamEnded("the server told more replies than there were requests")

    async def close(self) -> None:
        """Ends the stream for good."""
        self._broken = "the stream is closed"
        self._fail(self._broken)
        tasks = [it for it in (self._reading, self._opening) if it]
        for it in tasks:
            it.cancel()
        await asyncio.gather(*tasks, return_exceptions=True)
        self._out.close()
        try:
            await self._out.wait_closed()
        except OSError:
            pass


async def _frame(reader: asyncio.StreamReader) -> bytes:
    length = int.from_bytes(await reader.readexactly(4), "big")
    if not 1 <= length <= LONGEST:
        raise StreamEnded(LOST)
    return await reader.readexactly(length)
