"""Reads protocol/frames.tsv: frames of the protocol, each with its line in the language of examples/frames.py.

A row is a request (`>`) or a reply (`<`). Its frame is written in bytes of two hexadecimal digits; `00*8` is such a byte eight times, and a path from
the top of the repository stands for the bytes of that file. `by` has requests that lead to a reply, with `; ` between them: it is the last one of
their last round.
"""
import os
from collections import namedtuple

TOP = os.path.dirname(os.path.dirname(os.path.abspath(__file__)))

Golden = namedtuple("Golden", "side line by frame")
"""A row of the table. `frame` has the bytes, behind their length."""


def bytes_of(text):
    """Returns the bytes that a text of the table stands for."""
    parts = []
    for word in text.split():
        if "/" in word:
            with open(os.path.join(TOP, word), "rb") as file:
                parts.append(file.read())
        else:
            byte, _, count = word.partition("*")
            parts.append(bytes.fromhex(byte) * int(count or 1))
    return b"".join(parts)


def rows(side):
    """Returns the requests (`>`) or the replies (`<`) of the table."""
    with open(os.path.join(TOP, "protocol/frames.tsv"), encoding="utf-8") as table:
        cells = [line.rstrip("\n").split("\t") for line in table][1:]
    return [Golden(it[0], it[1], it[2], bytes_of(it[3])) for it in cells if it[0] == side]


def requests():
    return rows(">")


def replies():
    return rows("<")


def frames_of(text):
    """Returns the frames of a text, each with its length in front."""
    found = []
    while text:
        length = 4 + int.from_bytes(text[:4], "big")
        found.append(text[:length])
        text = text[length:]
    return found
