"""jentry_aio: the client of `jentry serve` for asyncio.

    async with await jentry_aio.connect("/run/jentry/jentry.sock") as cache:
        await cache.put(7, 41)
        await cache.put_if_absent(7, 1)                        # False
        await asyncio.gather(*(cache.get(key) for key in range(1000)))      # one round

Calls made in one iteration of the event loop, or while two rounds are in flight, are sent together as one round and run in any order. A task that
awaits each of its calls keeps their order. Errors, arguments, classes and timeouts are those of `jentry`.

This client isn't part of what is proved about the server: a bug in it can return wrong results.
"""
from __future__ import annotations

import asyncio
import os
from types import TracebackType
from typing import Optional, Type

import jentry
from jentry.cache import most_requests
from jentry.stream import KEEPS_MEMORY, PROGRAM
from jentry.tables import MOST_JOBS
from jentry_aio.calls import Calls
from jentry_aio.stream import Opener, Stream, Timeout, by_timeout

__all__ = ["Cache", "connect", "start"]


class Cache(Calls):
    """A connection to a server. Each method returns an awaitable. A Cache belongs to the event loop in which it was made.

    A call takes at most its `timeout` in seconds, by default that of the cache, and raises jentry.TimedOut then. It raises jentry.NotSent if the
    stream had ended before, and jentry.OutcomeUnknown if the stream ended before the reply came."""

    def __init__(
        self,
        reader: asyncio.StreamReader,
        writer: asyncio.StreamWriter,
        child: Optional[asyncio.subprocess.Process] = None,
    ) -> None:
        super().__init__(Stream(reader, writer, None, MOST_JOBS, None), None)
        self._child = child

    async def close(self) -> None:
        """Ends the stream. Waiting calls and later ones raise StreamEnded."""
        await self._stream.close()
        if self._child:
            await self._end_child(self._child)

    async def _end_child(self, child: asyncio.subprocess.Process) -> None:
        """Waits until the child exits, and reads its output to the end: asyncio doesn't report an exit before the end of the output."""
        rest = asyncio.ensure_future(self._read_on(child))
        try:
            await asyncio.wait_for(child.wait(), 5)
        except asyncio.TimeoutError:
            child.kill()
            await child.wait()
        rest.cancel()
        await asyncio.gather(rest, return_exceptions=True)

    async def _read_on(self, child: asyncio.subprocess.Process) -> None:
        while child.stdout and await child.stdout.read(65_536):
            pass

    async def __aenter__(self) -> Cache:
        return self

    async def __aexit__(
        self, kind: Optional[Type[BaseException]], error: Optional[BaseException], trace: Optional[TracebackType]
    ) -> None:
        await self.close()


async def connect(
    address: jentry.Address, *, timeout: Timeout = None, reconnect: Optional[float] = None, requests: int = MOST_JOBS
) -> Cache:
    """Connects to a shared server at the path of a unix socket or at (host, port), and returns a Cache of it. The options are those of
    jentry.Cache.connect."""
    if reconnect is not None and not reconnect >= 0:
        raise jentry.WrongArgument(f"reconnect={reconnect}: it has to be at least 0 seconds, or None")
    most_requests(requests)
    opener = Opener(address)
    cache = Cache(*await by_timeout(opener.open, timeout))
    cache._timeout = timeout
    cache._stream.set_options(opener, requests, reconnect)
    return cache


async def start(*command: str, timeout: Timeout = None) -> Cache:
    """Starts a private server by its command, `jentry serve` by default, and returns a Cache of it."""
    pipe = asyncio.subprocess.PIPE
    words, variables = command or PROGRAM, {**KEEPS_MEMORY, **os.environ}
    try:
        child = await asyncio.create_subprocess_exec(*words, stdin=pipe, stdout=pipe, env=variables)
    except OSError as e:
        raise jentry.NotConnected(e.errno, f"{words[0]} can't be started: {e.strerror}") from e
    assert child.stdout is not None and child.stdin is not None, "they are pipes"
    cache = Cache(child.stdout, child.stdin, child)
    cache._timeout = timeout
    return cache
