"""How the calls of many threads share a stream: the first one that waits leads. It sends the queue as one round and distributes the replies."""
from __future__ import annotations

import threading
import time
from collections import deque
from functools import partial
from typing import Any, Callable, Deque, Dict, List, Optional

from jentry.errors import Error, NotConnected, NotSent, OutcomeUnknown, StreamEnded, TimedOut
from jentry.requests import END, ENDED, Class, Classes, read_answer, rounds_of
from jentry.rounds import Calls
from jentry.stream import LOST, Deadline, Stream
from jentry.tables import DEFINE, MOST_JOBS

FIRST_PAUSE, LONGEST_PAUSE = 0.05, 1.0


class Call:
    """A round in the queue. `bell` is released to wake its thread; `leads` says that this thread has to lead, `is_left` that it stopped waiting, and
    `is_put_back` that its stream ended before the call was sent."""

    __slots__ = ("calls", "jobs", "bell", "leads", "is_left", "is_done", "is_put_back", "error")

    def __init__(self, calls: Calls) -> None:
        self.calls, self.jobs = calls, sum(request.jobs for request, _ in calls)
        self.bell, self.leads, self.is_left, self.is_done, self.is_put_back = (
            threading.Lock(),
            False,
            False,
            False,
            False,
        )
        self.error: Optional[Error] = None
        self.bell.acquire()

    def fail(self, error: Error) -> None:
        """Ends the call by an error, which all its answers raise."""
        self.error, self.is_done = error, True
        for _, answer in self.calls:
            answer._tell(error)


class Exchange:
    """The round that is out: its calls, the bytes that weren't sent yet, and the replies so far."""

    def __init__(self, taken: List[Call]) -> None:
        self.taken = taken
        self.calls = [pair for call in taken for pair in call.calls]
        self.unsent = memoryview(b"".join([request.frame() for request, _ in self.calls]) + END)
        self.told: List[object] = []


class Exchanges:
    """A queue of calls on a stream. `open_stream` makes the first stream, and with `patience` another one when it has ended: a call tries for that
    many seconds."""

    def __init__(self, open_stream: Callable[[Deadline], Stream], most: int, patience: Optional[float]) -> None:
        self._open, self._most, self._patience = open_stream, most, patience
        self._lock, self._is_led, self._broken = threading.Lock(), False, ""
        self._waiting: Deque[Call] = deque()
        self._out: Optional[Exchange] = None
        self._stream: Optional[Stream] = None
        self._classes = Classes()
        self.reconnections = -1

    def open(self, deadline: Deadline) -> None:
        """Opens the first stream."""
        self._stream = self._open(deadline)
        self.reconnections = 0

    def close(self) -> None:
        """Ends the stream for good."""
        with self._lock:
            is_open, self._broken = self._broken != "the stream is closed", "the stream is closed"
            stream = self._stream
        if is_open and stream:
            stream.close()

    def make(self, calls: Calls, deadline: Deadline) -> None:
        """Sends requests and waits for their replies. Sends more requests than the server takes in a round as several rounds."""
        for at in range(0, len(calls), self._most):
            try:
                self._make(Call(calls[at : at + self._most]), deadline)
            except Error:
                for _, answer in calls[at + self._most :]:
                    answer._tell(NotSent("an earlier part of the round failed, and this one wasn't sent"))
                raise

    def _make(self, call: Call, deadline: Deadline) -> None:
        with self._lock:
            if self._broken:
                call.fail(NotSent(f"{self._broken}, and the call wasn't sent"))
            else:
                self._waiting.append(call)
                call.leads, self._is_led = not self._is_led, True
        if not call.is_done and not call.leads:
            self._wait(call, deadline)
        if call.leads:
            self._lead(call, deadline)
        if call.error:
            raise call.error

    def _wait(self, call: Call, deadline: Deadline) -> None:
        """Waits until a call has its replies or has to lead. At the deadline, or if the wait is interrupted, the call leaves."""
        try:
            if call.bell.acquire(timeout=deadline.for_lock()):
                return
        except BaseException:
            with self._lock:
                self._leave(call)
                if call.leads:
                    self._hand_on()
            raise
        with self._lock:
            if not call.leads and not call.is_done:
                call.fail(TimedOut(self._leave(call)))

    def _leave(self, call: Call) -> bool:
        """Takes a call out of the queue, and returns whether it was sent. The caller holds the lock."""
        call.is_left = True
        if call in self._waiting:
            self._waiting.remove(call)
            return False
        return True

    def _hand_on(self) -> None:
        """Makes the next call the leader, first one that is out. The caller holds the lock."""
        out = [call for call in self._out.taken if not call.is_left] if self._out else []
        following = out[0] if out else self._waiting[0] if self._waiting else None
        self._is_led = following is not None
        if following:
            following.leads = True
            following.bell.release()

    def _lead(self, call: Call, deadline: Deadline) -> None:
        """Reads the replies that are out, and sends the queue until this call is done or its time is over."""
        try:
            while not call.is_done:
                try:
                    self._go_on(call, deadline)
                except TimedOut:
                    with self._lock:
                        call.fail(TimedOut(self._leave(call)))
                except NotConnected as e:
                    self._fail_waiting(partial(NotConnected, e.errno, e.strerror))
                except (StreamEnded, OSError, ValueError) as e:
                    self._fail(str(e) if isinstance(e, StreamEnded) else LOST)
        except BaseException:
            # What the interrupted read had of a reply may be lost.
            with self._lock:
                self._leave(call)
            self._fail(LOST)
            raise
        finally:
            with self._lock:
                self._hand_on()

    def _go_on(self, leader: Call, deadline: Deadline) -> None:
        """Takes the round that is out, or else the queue, to its end."""
        if self._out is None:
            self._begin(deadline)
        stream, out = self._stream, self._out
        assert stream is not None and out is not None, "a round that is out has a stream"
        while out.unsent:
            out.unsent = stream.send(out.unsent, deadline)
        stream.flush()
        while len(out.told) < len(out.calls):
            out.told.append(read_answer(out.calls[len(out.told)][0], stream.frame(deadline)))
        if stream.frame(deadline) != ENDED:
            raise StreamEnded("the server told more replies than there were requests")
        with self._lock:
            self._tell(out)
            self._end(out.taken, leader)

    def _tell(self, out: Exchange) -> None:
        """Gives the replies to the calls, without those that left. The caller holds the lock."""
        at = 0
        for call in out.taken:
            for request, answer in call.calls:
                told, at = out.told[at], at + 1
                if self._patience is not None and request.kind == DEFINE and isinstance(told, Class):
                    told = self._classes.keep(request.file, told)
                if not call.is_left:
                    answer._tell(told)

    def _begin(self, deadline: Deadline) -> None:
        """Makes a round of the calls that wait. They aren't taken from the queue before there is a stream."""
        if self._stream is None:
            stream = self._open_again(deadline)
            with self._lock:
                self._stream, closed = stream, self._broken
            if closed:
                stream.close()
                raise StreamEnded(closed)
        with self._lock:
            taken: List[Call] = []
            jobs = count = 0
            while self._waiting:
                it = self._waiting[0]
                if taken and (jobs + it.jobs > MOST_JOBS or count + len(it.calls) > self._most):
                    break
                taken.append(self._waiting.popleft())
                jobs, count = jobs + it.jobs, count + len(it.calls)
            self._out = Exchange(taken)
        self._stream.hold_open()

    def _end(self, taken: List[Call], leader: Optional[Call]) -> None:
        """Ends the round that was out, and wakes the threads of its calls. The leader is awake."""
        self._out = None
        for call in taken:
            call.is_done = True
            if call is not leader and not call.leads:
                call.bell.release()

    def _fail(self, why: str) -> None:
        """Ends a stream that broke. Calls that were sent end by OutcomeUnknown. The others wait for another stream, or end by NotSent."""
        with self._lock:
            out, stream = self._out, self._stream
            renews = self._patience is not None and not self._broken
            back: List[Call] = []
            for call in out.taken if out else []:
                if out and not out.unsent:
                    call.fail(OutcomeUnknown(why))
                elif not renews or call.is_put_back or call.is_left:
                    call.fail(NotSent(f"{self._broken or 'the stream has ended'}, and the call wasn't sent"))
                else:
                    call.is_put_back = True
                    back.append(call)
            self._waiting.extendleft(reversed(back))
            self._end([call for call in out.taken if call.is_done] if out else [], None)
            if renews:
                self._stream = None
            else:
                self._broken = self._broken or "the stream has ended"
        if renews and stream:
            stream.close()
        if not renews:
            self._fail_waiting(lambda: NotSent(f"{self._broken}, and the call wasn't sent"))

    def _fail_waiting(self, error: Callable[[], Error]) -> None:
        """Ends all calls in the queue by an error."""
        with self._lock:
            others = list(self._waiting)
            self._waiting.clear()
            for call in others:
                call.fail(error())
                if not call.leads:
                    call.bell.release()

    def _open_again(self, deadline: Deadline) -> Stream:
        """Opens another stream, and defines all classes on it. Tries again while there is patience, with pauses that grow."""
        limit, pause = Deadline(self._patience or None), FIRST_PAUSE
        while True:
            try:
                stream = self._open(deadline)
                try:
                    self._define_all(stream, deadline)
                except BaseException:
                    stream.close()
                    raise
                self.reconnections += 1
                return stream
            except TimedOut:
                raise TimedOut(False) from None
            except (StreamEnded, OSError) as e:
                if self._broken or not self._patience or limit.left() == 0:
                    raise NotConnected(
                        getattr(e, "errno", None), f"the stream ended, and there is no other: {e}"
                    ) from e
            left = min(it for it in (pause, limit.left(), deadline.left()) if it is not None)
            time.sleep(left)
            if deadline.left() == 0:
                raise TimedOut(False)
            pause = min(2 * pause, LONGEST_PAUSE)

    def _define_all(self, stream: Stream, deadline: Deadline) -> None:
        """Defines the classes on a new stream. Calls of a class that is no longer accepted are denied by the server as UnknownClass."""
        for definitions in rounds_of(self._classes.definitions(), self._most):
            text = memoryview(b"".join([it.frame() for it in definitions]) + END)
            while text:
                text = stream.send(text, deadline)
            stream.flush()
            for it in definitions:
                told = read_answer(it, stream.frame(deadline))
                if isinstance(told, Class):
                    self._classes.keep(it.file, told)
            if stream.frame(deadline) != ENDED:
                raise StreamEnded("the server told more replies than there were requests")


class Processors:
    """The built-in processors of a stream by name. One thread at a time defines them."""

    def __init__(self) -> None:
        self._lock = threading.Lock()
        self._by_name: Dict[str, Class] = {}

    def get(self, name: str, define: Callable[[], Any], deadline: Deadline) -> Class:
        """Returns a processor. Defines it at its first use."""
        found = self._by_name.get(name)
        if found is None:
            if not self._lock.acquire(timeout=deadline.for_lock()):
                raise TimedOut(False)
            try:
                found = self._by_name.get(name) or define()
                self._by_name[name] = found
            finally:
                self._lock.release()
        return found
