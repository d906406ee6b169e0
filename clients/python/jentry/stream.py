"""A stream of frames to and from a server, with deadlines."""
from __future__ import annotations

import os
import select
import socket
import subprocess
import time
from typing import Any, Callable, Optional, Protocol, Sequence, Tuple, Union

from jentry.errors import NotConnected, StreamEnded, TimedOut, WrongArgument
from jentry.tables import LONGEST

Address = Union[str, Tuple[str, int]]
"""The path of a unix socket, or (host, port)."""
PROGRAM = ("jentry", "serve")
# With glibc these settings keep the memory that a round of the server frees for its next round. Fresh memory for each round costs as much as the
# calls.
KEEPS_MEMORY = {"MALLOC_MMAP_THRESHOLD_": "33554432", "MALLOC_TRIM_THRESHOLD_": "67108864"}
LOST = "the stream has ended; whether calls that were out have run is not known"
CHUNK = 65_536
# Longer timeouts are no limit: they are past what poll() and locks take.
MOST_SECONDS = 1_000_000.0
END_PATIENCE = 5


class Reader(Protocol):
    """A binary file to read from. Its `read` returns None instead of waiting, if it doesn't block."""

    def read(self, count: int, /) -> Optional[bytes]:
        """Returns at most this number of bytes, and none at the end."""


class Writer(Protocol):
    """A binary file to write to. Its `write` returns the number of bytes that it took, or None instead of waiting."""

    def write(self, text: Any, /) -> Optional[int]:
        """Writes some of the bytes."""


class Deadline:
    """The end of a timeout, or none."""

    __slots__ = ("_end",)

    def __init__(self, seconds: Optional[float]) -> None:
        if seconds is not None and not seconds > 0:
            raise WrongArgument(f"a timeout of {seconds} s: it has to be more than 0, or None")
        self._end = None if seconds is None or seconds > MOST_SECONDS else time.monotonic() + seconds

    def left(self) -> Optional[float]:
        """Returns the seconds that are left, at least 0, or None where there is no limit."""
        return None if self._end is None else max(0.0, self._end - time.monotonic())

    def for_lock(self) -> float:
        """Returns the seconds that are left, as a lock takes them."""
        left = self.left()
        return -1 if left is None else left


def _descriptor(file: object) -> Optional[int]:
    try:
        return int(file.fileno())  # type: ignore[attr-defined]
    except (AttributeError, OSError, ValueError):
        return None


class Stream:
    """Frames over two binary files. `close` ends the stream. Waits end at a deadline if the files don't block."""

    def __init__(self, reader: Reader, writer: Writer, close: Callable[[], None]) -> None:
        self.close = close
        self._read = getattr(reader, "read1", reader.read)
        self._writer, self._buffer, self._at = writer, b"", 0
        self._readable = _poll(_descriptor(reader), select.POLLIN)
        self._writable = _poll(_descriptor(writer), select.POLLOUT)

    def hold_open(self) -> None:
        """Raises StreamEnded if the server has ended the stream, or has sent what nobody asked for. No reply may be pending."""
        if self._at < len(self._buffer) or self._readable and self._readable.poll(0):
            raise StreamEnded(LOST)

    def send(self, text: memoryview, deadline: Deadline) -> memoryview:
        """Sends a part of these bytes, and returns the rest."""
        sent = self._writer.write(text)
        if sent is None:
            _wait(self._writable, deadline)
        return text[sent or 0 :]

    def flush(self) -> None:
        """Flushes a writer that has a buffer."""
        flush = getattr(self._writer, "flush", None)
        if flush:
            flush()

    def frame(self, deadline: Deadline) -> bytes:
        """Returns the next frame. What came of it before a TimedOut is kept for the next call."""
        while True:
            here = len(self._buffer) - self._at
            if here >= 4:
                start = self._at + 4
                length = int.from_bytes(self._buffer[self._at : start], "big")
                if not 1 <= length <= LONGEST:
                    raise StreamEnded(LOST)
                if here >= 4 + length:
                    self._at = start + length
                    return self._buffer[start : self._at]
            self._fill(deadline)

    def _fill(self, deadline: Deadline) -> None:
        text = None
        while text is None:
            # A reply is hardly ever there yet: a read that finds none costs more than a poll.
            if self._readable:
                _wait(self._readable, deadline)
            text = self._read(CHUNK)
        if not text:
            raise StreamEnded(LOST)
        self._buffer, self._at = self._buffer[self._at :] + text, 0


def _poll(source: Optional[int], event: int) -> Optional[select.poll]:
    if source is None:
        return None
    poll = select.poll()
    poll.register(source, event)
    return poll


def _wait(poll: Optional[select.poll], deadline: Deadline) -> None:
    if poll is None:
        raise StreamEnded("a file that doesn't block and has no descriptor")
    left = deadline.left()
    if not poll.poll(None if left is None else int(left * 1_000 + 0.999)):
        raise TimedOut(True)


class _Socket:
    """A socket that doesn't block, as a reader and a writer."""

    def __init__(self, line: socket.socket) -> None:
        line.setblocking(False)
        self._line, self.fileno = line, line.fileno

    def read(self, count: int) -> Optional[bytes]:
        try:
            return self._line.recv(count)
        except BlockingIOError:
            return None

    def write(self, text: Any) -> Optional[int]:
        try:
            return self._line.send(text)
        except BlockingIOError:
            return None

    def close(self) -> None:
        try:
            self._line.shutdown(socket.SHUT_RDWR)
        except OSError:
            pass
        self._line.close()


def _open_socket(address: Address, seconds: Optional[float]) -> socket.socket:
    if isinstance(address, tuple):
        line = socket.create_connection(address, seconds)
        line.setsockopt(socket.IPPROTO_TCP, socket.TCP_NODELAY, 1)
        return line
    line = socket.socket(socket.AF_UNIX)
    try:
        line.settimeout(seconds)
        line.connect(address)
    except BaseException:
        line.close()
        raise
    return line


def connect(address: Address, deadline: Deadline) -> Stream:
    """Connects to a shared server. Raises NotConnected on failure, and TimedOut at the deadline."""
    left = deadline.left()
    if left == 0:
        raise TimedOut(False)
    try:
        line = _Socket(_open_socket(address, left))
    except socket.timeout:
        raise TimedOut(False) from None
    except OSError as e:
        raise NotConnected(e.errno, f"no connection to {address}: {e.strerror or e}") from e
    return Stream(line, line, line.close)


def start(command: Sequence[str]) -> Stream:
    """Starts a private server. Raises NotConnected if its program can't be started."""
    pipe, variables = subprocess.PIPE, {**KEEPS_MEMORY, **os.environ}
    try:
        child = subprocess.Popen(command or PROGRAM, bufsize=0, stdin=pipe, stdout=pipe, env=variables)
    except OSError as e:
        raise NotConnected(e.errno, f"{(command or PROGRAM)[0]} can't be started: {e.strerror}") from e
    assert child.stdin is not None and child.stdout is not None, "they are pipes"
    for it in (child.stdin, child.stdout):
        os.set_blocking(it.fileno(), False)
    return Stream(child.stdout, child.stdin, lambda: _end(child))


def _end(child: subprocess.Popen[bytes]) -> None:
    """Ends a private server: by the end of its input, else by a signal."""
    assert child.stdin is not None and child.stdout is not None, "they are pipes"
    try:
        child.stdin.close()
    except OSError:
        pass
    try:
        child.wait(END_PATIENCE)
    except subprocess.TimeoutExpired:
        child.kill()
        child.wait()
    child.stdout.close()
