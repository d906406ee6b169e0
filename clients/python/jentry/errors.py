"""The exceptions of the clients of `jentry serve`. Users import them from `jentry`, which is also the module that a traceback shows."""
from __future__ import annotations

from typing import Optional, Sequence

from jentry.tables import DENIALS, EXCEPTIONS, REFUSALS


def _name(names: Sequence[Optional[str]], number: int) -> str:
    """Returns the name of a number, or "unknown" for a number that only a later server has."""
    return (names[number] if 0 < number < len(names) else None) or "unknown"


class Error(Exception):
    """The base class of the client's exceptions."""

    __module__ = "jentry"


class WrongArgument(Error, ValueError):
    """An argument that can't be sent, such as a key that is no Long. Nothing was sent."""

    __module__ = "jentry"


class NotConnected(Error, ConnectionError):
    """The server can't be reached or started. It did nothing of the call."""

    __module__ = "jentry"

    def __str__(self) -> str:
        return str(self.args[-1])


class StreamEnded(Error):
    """The stream has ended. A call raises one of its two subclasses."""

    __module__ = "jentry"


class NotSent(StreamEnded):
    """The stream has ended or is closed, and the server did nothing of the call."""

    __module__ = "jentry"


class OutcomeUnknown(StreamEnded):
    """The stream ended after the call was sent. Whether the server has run it is unknown. It isn't sent again."""

    __module__ = "jentry"


class TimedOut(Error, TimeoutError):
    """A call had no reply within its timeout. With `was_sent` it is unknown whether the server has run it or will; else the server never will."""

    __module__ = "jentry"

    def __init__(self, was_sent: bool) -> None:
        self.was_sent = was_sent
        super().__init__(
            "no reply within the timeout; whether the call runs is unknown"
            if was_sent
            else "the timeout ended before the call was sent"
        )


class Denied(Error):
    """The server didn't run a request, and changed nothing. `number` and `name` give the reason."""

    __module__ = "jentry"

    def __init__(self, number: int) -> None:
        self.number, self.name = number, _name(DENIALS, number)
        super().__init__(f"denied: {number} {self.name}")


class Refused(Error):
    """The server didn't accept a class. `number` and `name` give the reason. `detail` is the opcode for 17, and the index in the code for 22."""

    __module__ = "jentry"

    def __init__(self, number: int, detail: int) -> None:
        self.number, self.name, self.detail = number, _name(REFUSALS, number), detail
        place = f" opcode {detail}" if number == 17 else f" at {detail}" if number == 22 else ""
        super().__init__(f"refused: {number} {self.name}{place}")


class ProcessorThrew(Error):
    """A processor, or the server's loader in a get, threw the Java exception in `number` and `name`. The entry is unchanged.

    `text` is the text of an exception that the processor threw by `throw`. It is None for one without a text, for other exceptions, and for a
    class that wasn't defined by this client."""

    __module__ = "jentry"

    def __init__(self, number: int, text: Optional[str] = None) -> None:
        self.number, self.name, self.text = number, _name(EXCEPTIONS, number), text
        super().__init__(self.name if text is None else f"{self.name}: {text}")
