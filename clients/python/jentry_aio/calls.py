"""The calls of the client for asyncio."""
from __future__ import annotations

import asyncio
from typing import Awaitable, Dict, Iterable, Optional, TypeVar

from jentry import requests
from jentry.cache import processor_file
from jentry.errors import Error
from jentry.requests import Class, Outcome, Request
from jentry_aio.stream import Stream, Timeout

T = TypeVar("T")


class Calls:
    """The requests and the built-in processors as methods. Each returns an awaitable."""

    def __init__(self, stream: Stream, timeout: Timeout) -> None:
        self._stream, self._timeout = stream, timeout
        self._processors: Dict[str, asyncio.Future[Class]] = {}

    @property
    def reconnections(self) -> int:
        """How often this cache has connected again. A change means that the server may have lost entries."""
        return self._stream.reconnections

    def _ask(self, request: Request[T], timeout: Timeout) -> asyncio.Future[T]:
        return self._stream.ask(request, self._timeout if timeout is None else timeout)

    async def processor(self, name: str, *, timeout: Timeout = None) -> Class:
        """Returns the Class of a built-in processor. Tasks that use it concurrently wait for one definition."""
        if name not in self._processors:
            self._processors[name] = self._ask(requests.define(processor_file(name)), timeout)
        found = self._processors[name]
        try:
            return await asyncio.shield(found)
        except Error:
            # The next use tries again: memory may be available then.
            if self._processors.get(name) is found:
                del self._processors[name]
            raise

    def define(self, file: bytes, *, timeout: Timeout = None) -> Awaitable[Class]:
        """Has the server verify a class file, given as bytes, and returns a Class for `invoke` and `invoke_all`. Raises jentry.Refused if it isn't
        accepted."""
        return self._ask(requests.define(file), timeout)

    def put(self, key: int, value: int, *, timeout: Timeout = None) -> Awaitable[None]:
        """Sets the value of a key."""
        return self._ask(requests.put(key, value), timeout)

    def get(self, key: int, *, timeout: Timeout = None) -> Awaitable[Optional[int]]:
        """Returns the value of a key, or None if it has no entry."""
        return self._ask(requests.get(key), timeout)

    def remove(self, key: int, *, timeout: Timeout = None) -> Awaitable[bool]:
        """Removes the entry of a key. Returns whether there was one."""
        return self._ask(requests.remove(key), timeout)

    def contains(self, key: int, *, timeout: Timeout = None) -> Awaitable[bool]:
        """Returns whether a key has an entry."""
        return self._ask(requests.contains(key), timeout)

    def invoke(
        self, key: int, processor: Class, *arguments: Optional[int], timeout: Timeout = None
    ) -> Awaitable[Optional[int]]:
        """Runs a processor, a Class of this stream, on the entry of a key. Returns its result, or raises jentry.ProcessorThrew if it threw."""
        return self._ask(requests.invoke(key, processor, arguments), timeout)

    def invoke_all(
        self, keys: Iterable[int], processor: Class, *arguments: Optional[int], timeout: Timeout = None
    ) -> Awaitable[Dict[int, Outcome]]:
        """Runs a processor once on the entry of each distinct key, of at most 4,096. Returns a dict as jentry.Cache.invoke_all does."""
        return self._ask(requests.invoke_all(keys, processor, arguments), timeout)

    async def get_and_put(self, key: int, value: int, *, timeout: Timeout = None) -> Optional[int]:
        """Sets the value of a key. Returns the previous value, or None."""
        return await self._run(key, "GetAndPut", timeout, value)

    async def put_if_absent(self, key: int, value: int, *, timeout: Timeout = None) -> bool:
        """Sets the value of a key that has no entry. Returns whether it did."""
        return bool(await self._run(key, "PutIfAbsent", timeout, value))

    async def remove_if(self, key: int, old: int, *, timeout: Timeout = None) -> bool:
        """Removes the entry of a key if its value is `old`. Returns whether it did."""
        return bool(await self._run(key, "RemoveIf", timeout, old))

    async def get_and_remove(self, key: int, *, timeout: Timeout = None) -> Optional[int]:
        """Removes the entry of a key. Returns the previous value, or None."""
        return await self._run(key, "GetAndRemove", timeout)

    async def replace_if(self, key: int, old: int, value: int, *, timeout: Timeout = None) -> bool:
        """Sets the value of a key if its current value is `old`. Returns whether it did."""
        return bool(await self._run(key, "ReplaceIf", timeout, old, value))

    async def replace(self, key: int, value: int, *, timeout: Timeout = None) -> bool:
        """Sets the value of a key that has an entry. Returns whether it did."""
        return bool(await self._run(key, "Replace", timeout, value))

    async def get_and_replace(self, key: int, value: int, *, timeout: Timeout = None) -> Optional[int]:
        """Sets the value of a key that has an entry. Returns the previous value, or None."""
        return await self._run(key, "GetAndReplace", timeout, value)

    async def _run(self, key: int, name: str, timeout: Timeout, *arguments: int) -> Optional[int]:
        """Each of the two steps has the timeout: the definition, which only the first use of a processor needs, and the run."""
        processor = await self.processor(name, timeout=timeout)
        return await self._ask(requests.invoke(key, processor, arguments), timeout)
