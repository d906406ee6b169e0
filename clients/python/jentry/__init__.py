"""jentry: a client of `jentry serve`, for Python 3.9 and later. It uses only the standard library.

    with jentry.Cache.start("jentry", "serve") as cache:         # a private server
        cache.put(7, 41)
        cache.get(7)                                           # 41
        cache.put_if_absent(7, 1)                              # False
        with open("Add.class", "rb") as file:
            add = cache.define(file.read())
        cache.invoke(7, add, 1)                                # 42
        cache.invoke_all([7, 8], add, 1)                       # {7: 43, 8: 1}
        with cache.round() as r:                               # a batch of requests, run in any order
            answers = [r.get(key) for key in range(100)]
        answers[7].result()                                    # 43

`Cache.connect` connects to a shared server in place of a private one. A Cache may be used by many threads: concurrent calls are combined into one
round. Keys and values are numbers in the range of a Java long. An argument is such a number (a Long), `jentry.Int(n)` (an Integer), True or False (a
Boolean), or None (null), and so is a result. All exceptions are subclasses of `jentry.Error`.

This client isn't part of what is proved about the server: a bug in it can return wrong results.
"""
from jentry.cache import Cache
from jentry.errors import (
    Denied,
    Error,
    NotConnected,
    NotSent,
    OutcomeUnknown,
    ProcessorThrew,
    Refused,
    StreamEnded,
    TimedOut,
    WrongArgument,
)
from jentry.requests import Answer, Class, Int, Outcome
from jentry.rounds import Round
from jentry.stream import Address
from jentry.tables import DENIALS, EXCEPTIONS, REFUSALS

__all__ = [
    "Address",
    "Answer",
    "Cache",
    "Class",
    "DENIALS",
    "Denied",
    "EXCEPTIONS",
    "Error",
    "Int",
    "NotConnected",
    "NotSent",
    "Outcome",
    "OutcomeUnknown",
    "ProcessorThrew",
    "REFUSALS",
    "Refused",
    "Round",
    "StreamEnded",
    "TimedOut",
    "WrongArgument",
]
