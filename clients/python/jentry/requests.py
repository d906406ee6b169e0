"""The requests of the protocol as bytes, and its replies as Python's values."""
from __future__ import annotations

import struct
from typing import Any, Callable, Dict, Generic, Iterable, List, Optional, Tuple, TypeVar, Union, cast

from jentry import tables
from jentry.constant_pool import Strings
from jentry.errors import Denied, Error, ProcessorThrew, Refused, StreamEnded, WrongArgument
from jentry.tables import CONTAINS, DEFINE, DEFINED, DENIED, DONE, FLAG, GET, INVOKE, INVOKE_ALL, LONGEST
from jentry.tables import MOST_ARGUMENTS, MOST_JOBS, PUT, REFUSED, REMOVE, RESULT, RESULTS, VALUE

T = TypeVar("T")
END = struct.pack(">IB", 1, tables.END)
"""The end of a round, behind its length."""
ENDED = bytes([tables.ENDED])
"""The reply to the end of a round, without its length."""
NO_CLASS = 2**32 - 1
"""A number that no class has."""


class Int(int):
    """A Java Integer. A plain number is a Long."""


class Class:
    """A class that the server has accepted. `number` identifies it on this stream. A run takes at most `steps` instructions and `words` array
    words. `strings` has the String constants of its file, if this client has defined it."""

    def __init__(self, number: int, steps: int, words: int, file: bytes = b"") -> None:
        self.number, self.steps, self.words, self.strings = number, steps, words, Strings(file)


Outcome = Union[int, None, ProcessorThrew, Denied]
"""What a run on one of several keys gave: a result, or the exception instead of it."""


class Request(Generic[T]):
    """A request whose call returns a T. Its frame is made when it is sent, since a class may have another number on a new stream."""

    __slots__ = ("kind", "_body", "jobs", "_processor", "convert")

    def __init__(
        self,
        kind: int,
        body: bytes,
        jobs: int = 1,
        processor: Optional[Class] = None,
        convert: Optional[Callable[[Any], T]] = None,
    ) -> None:
        if len(body) + (5 if processor else 1) > LONGEST:
            raise WrongArgument(f"a request of more than {LONGEST} bytes")
        self.kind, self._body, self.jobs, self._processor, self.convert = kind, body, jobs, processor, convert

    @property
    def file(self) -> bytes:
        """The class file of a definition."""
        return self._body

    def exception(self, number: int, index: int) -> ProcessorThrew:
        """Returns an exception that the processor of this request threw, by the index of its text. No text is at index 0."""
        return ProcessorThrew(number, self._processor.strings.at(index) if self._processor else None)

    def frame(self) -> bytes:
        """Returns the request as bytes, behind their length."""
        if self._processor is None:
            return struct.pack(">IB", len(self._body) + 1, self.kind) + self._body
        return struct.pack(">IBI", len(self._body) + 5, self.kind, self._processor.number) + self._body


class Answer(Generic[T]):
    """The pending result of a request in a round."""

    __slots__ = ("kind", "_convert", "_told", "_is_told")

    def __init__(self, request: Request[T]) -> None:
        self.kind, self._convert, self._is_told = request.kind, request.convert, False
        self._told: Any = None

    def _tell(self, told: object) -> None:
        self._told, self._is_told = told, True

    def result(self) -> T:
        """Returns the result of the request.

        Raises Denied, Refused or ProcessorThrew if the server replied so, StreamEnded or TimedOut if there was no reply, and Error before the end
        of the round."""
        if not self._is_told:
            raise Error("the round has not been sent")
        if isinstance(self._told, Exception):
            raise self._told
        return self._convert(self._told) if self._convert else cast(T, self._told)


def _longs(*numbers: int) -> bytes:
    try:
        return struct.pack(f">{len(numbers)}q", *numbers)
    except struct.error:
        raise WrongArgument(f"one of {_shown(numbers)} is no Long, a whole number from -2**63 to 2**63-1") from None


def _shown(values: Iterable[object]) -> str:
    text = ", ".join(map(repr, values))
    return text if len(text) <= 200 else text[:200] + ".."


def _arguments(arguments: Tuple[Optional[int], ...]) -> bytes:
    if len(arguments) > MOST_ARGUMENTS:
        raise WrongArgument(f"an invocation takes at most {MOST_ARGUMENTS} arguments")
    parts = [bytes([len(arguments)])]
    for it in arguments:
        if it is None:
            parts.append(bytes([tables.NULL]))
        elif isinstance(it, bool):  # before Long, since a bool is an int
            parts.append(bytes([tables.TRUE if it else tables.FALSE]))
        elif isinstance(it, Int):
            parts.append(bytes([tables.INTEGER]) + _int(it))
        else:
            parts.append(bytes([tables.LONG]) + _longs(it))
    return b"".join(parts)


def _int(number: Int) -> bytes:
    try:
        return struct.pack(">i", number)
    except struct.error:
        raise WrongArgument(f"{number} is no Integer, a whole number from -2**31 to 2**31-1") from None


def define(file: bytes) -> Request[Class]:
    """Returns a request that defines a class."""
    if not isinstance(file, (bytes, bytearray, memoryview)):
        raise WrongArgument(f"a class file is bytes, and not {type(file).__name__}")
    return Request(DEFINE, bytes(file), 0)


def put(key: int, value: int) -> Request[None]:
    """Returns a request that sets a value."""
    return Request(PUT, _longs(key, value))


def get(key: int) -> Request[Optional[int]]:
    """Returns a request for a value."""
    return Request(GET, _longs(key))


def remove(key: int) -> Request[bool]:
    """Returns a request that removes an entry."""
    return Request(REMOVE, _longs(key))


def contains(key: int) -> Request[bool]:
    """Returns a request that asks for an entry."""
    return Request(CONTAINS, _longs(key))


def invoke(key: int, processor: Class, arguments: Tuple[Optional[int], ...]) -> Request[Optional[int]]:
    """Returns a request for a run on one entry."""
    return Request(INVOKE, _longs(key) + _arguments(arguments), 1, _class(processor))


def invoke_flag(key: int, processor: Class, arguments: Tuple[Optional[int], ...]) -> Request[bool]:
    """Returns a request for a run on one entry whose result is a flag."""
    return Request(INVOKE, _longs(key) + _arguments(arguments), 1, _class(processor), bool)


def invoke_all(
    keys: Iterable[int], processor: Class, arguments: Tuple[Optional[int], ...]
) -> Request[Dict[int, Outcome]]:
    """Returns a request for a run on each of several entries."""
    distinct = list(dict.fromkeys(keys))
    if len(distinct) > MOST_JOBS:
        raise WrongArgument(f"more than {MOST_JOBS} keys")
    body = struct.pack(">H", len(distinct)) + _longs(*distinct) + _arguments(arguments)
    return Request(INVOKE_ALL, body, len(distinct), _class(processor))


def _class(processor: Class) -> Class:
    if not isinstance(processor, Class):
        raise WrongArgument(f"a processor is a Class that define() returned, and not {type(processor).__name__}")
    return processor


def _argument(text: bytes, at: int) -> Tuple[Optional[int], int]:
    """Returns the argument encoded at offset `at`, and the offset after it."""
    if text[at] == tables.NULL:
        return None, at + 1
    if text[at] == tables.LONG:
        return int(struct.unpack_from(">q", text, at + 1)[0]), at + 9
    if text[at] == tables.INTEGER:
        return Int(struct.unpack_from(">i", text, at + 1)[0]), at + 5
    if text[at] in (tables.FALSE, tables.TRUE):
        return text[at] == tables.TRUE, at + 1
    raise ValueError("no argument")


def _defined(request: Request[Any], text: bytes) -> Tuple[Class, int]:
    """Returns the class in a reply to a definition, and the offset after it."""
    number, steps, words = struct.unpack_from(">III", text, 1)
    return Class(number, steps, words, request.file), 13


def _value(_: Request[Any], text: bytes) -> Tuple[Optional[int], int]:
    """Returns the Long or null in a reply to a get, and the offset after it."""
    if text[1] not in (tables.NULL, tables.LONG):
        raise ValueError("a value that is no Long")
    return _argument(text, 1)


def _outcome(request: Request[Any], text: bytes, at: int) -> Tuple[Outcome, int]:
    """Returns the outcome encoded at offset `at`, as a result or an exception object, and the offset after it."""
    if text[at] == tables.RETURNED:
        return _argument(text, at + 1)
    if text[at] == tables.THREW:
        return ProcessorThrew(text[at + 1]), at + 2
    if text[at] == tables.NOT_RUN:
        return Denied(text[at + 1]), at + 2
    if text[at] == tables.THROWN:
        return request.exception(*struct.unpack_from(">BH", text, at + 1)), at + 4
    raise ValueError("no outcome")


def _result(request: Request[Any], text: bytes) -> Tuple[Outcome, int]:
    """Returns the outcome in a reply to an invoke, or to a get whose loader failed, and the offset after it."""
    if request.kind == GET and text[1] != tables.THREW:
        raise ValueError("a result of a get that is no exception")
    return _outcome(request, text, 1)


def _results(request: Request[Any], text: bytes) -> Tuple[Dict[int, Outcome], int]:
    """Returns the outcomes in an invoke_all reply by key, and the offset after them."""
    told: Dict[int, Outcome] = {}
    at = 3
    for _ in range(*struct.unpack_from(">H", text, 1)):
        (key,) = struct.unpack_from(">q", text, at)
        told[key], at = _outcome(request, text, at + 8)
    return told, at


# The kinds of reply to each kind of request, besides DENIED.
_REPLIES = {
    DEFINE: (DEFINED, REFUSED),
    PUT: (DONE,),
    GET: (VALUE, RESULT),
    REMOVE: (FLAG,),
    CONTAINS: (FLAG,),
    INVOKE: (RESULT,),
    INVOKE_ALL: (RESULTS,),
}
_READERS: Dict[int, Callable[[Request[Any], bytes], Tuple[object, int]]] = {
    DEFINED: _defined,
    REFUSED: lambda _, text: (Refused(*struct.unpack_from(">BI", text, 1)), 6),
    DONE: lambda _, text: (None, 1),
    VALUE: _value,
    FLAG: lambda _, text: (text[1] == 1, 2),
    RESULT: _result,
    RESULTS: _results,
    DENIED: lambda _, text: (Denied(text[1]), 2),
}


def read_answer(request: Request[Any], text: bytes) -> object:
    """Decodes the reply to a request. Returns the result, or the exception object that the call has to raise.

    Raises StreamEnded if the text isn't a valid reply to the request."""
    try:
        if text[0] != DENIED and text[0] not in _REPLIES[request.kind]:
            raise ValueError("another kind")
        told, end = _READERS[text[0]](request, text)
        if end != len(text):
            raise ValueError("another length")
        return told
    except (ValueError, IndexError, struct.error) as e:
        raise StreamEnded(f"the server told what is no reply to the request ({e})") from e


class Classes:
    """The classes that a client defined, by their files, to define them again on a new stream."""

    def __init__(self) -> None:
        self._by_file: Dict[bytes, Class] = {}

    def keep(self, file: bytes, told: Class) -> Class:
        """Keeps a class. Returns the one that was kept of an equal file, with the new number."""
        kept = self._by_file.setdefault(file, told)
        kept.number, kept.steps, kept.words = told.number, told.steps, told.words
        return kept

    def definitions(self) -> List[Request[Class]]:
        """Returns the requests that define all classes again. Until they were answered, the server has none of them."""
        for it in self._by_file.values():
            it.number = NO_CLASS
        return [define(file) for file in self._by_file]


def rounds_of(requests: List[Request[Class]], most: int) -> List[List[Request[Class]]]:
    """Cuts requests into rounds of at most this number."""
    return [requests[at : at + most] for at in range(0, len(requests), most)]
