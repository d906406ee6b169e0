#!/usr/bin/env python3
"""test_frames: both clients write the requests and read the replies of protocol/frames.tsv."""
import asyncio
import os
import re
import sys
import unittest

HERE = os.path.dirname(os.path.abspath(__file__))
sys.path[:0] = [HERE, os.path.join(HERE, "../tests"), os.path.join(HERE, "../../protocol")]
import golden
import jentry
import jentry_aio
from class_files import with_strings
from jentry import requests, tables

PATIENCE = 60
ASKED = {
    tables.DEFINED: requests.define(b""),
    tables.REFUSED: requests.define(b""),
    tables.DONE: requests.put(1, 1),
    tables.VALUE: requests.get(1),
    tables.FLAG: requests.remove(1),
    tables.DENIED: requests.put(1, 1),
}
"""A request to which a reply of each kind without outcomes may come."""


def asked(row):
    """Returns a request to which a reply may come. The class of an invocation has the text `text=N` at each index N that the line names."""
    kind = row.frame[4]
    if kind not in (tables.RESULT, tables.RESULTS):
        return ASKED[kind]
    strings = {int(index): b"text=%d" % int(index) for index in re.findall(r" text=(\d+)", row.line)}
    processor = jentry.Class(0, 0, 0, with_strings(strings)) if strings else jentry.Class(0, 0, 0)
    return requests.invoke(1, processor, ()) if kind == tables.RESULT else requests.invoke_all([1], processor, ())


def argument_of(word):
    """Returns the argument that a word of a line stands for."""
    if word in ("null", "true", "false"):
        return {"null": None, "true": True, "false": False}[word]
    return jentry.Int(word[:-1]) if word.endswith("i") else int(word)


def keys_of(word):
    return [int(key) for key in word.split(",")]


def request_of(row):
    """Returns the request that a line stands for."""
    kind, *words = row.line.split()
    if kind == "define":
        return requests.define(row.frame[5:])
    if kind in ("invoke", "invokeall"):
        processor, arguments = jentry.Class(int(words[0]), 0, 0), tuple(map(argument_of, words[2:]))
        if kind == "invoke":
            return requests.invoke(int(words[1]), processor, arguments)
        return requests.invoke_all(keys_of(words[1]), processor, arguments)
    return getattr(requests, kind)(*map(int, words))


def sent():
    """Returns the requests of the table that a client sends as they are: it sends the end of a round by itself, and equal keys once."""
    return [
        row
        for row in golden.requests()
        if row.line != "end" and not (row.line.startswith("invokeall") and has_equal_keys(row.line.split()[2]))
    ]


def has_equal_keys(word):
    return len(set(keys_of(word))) < len(keys_of(word))


def received():
    """Returns the replies of the table to requests."""
    return [row for row in golden.replies() if row.line != "end"]


def text_of(value):
    """Returns the words of a result, or of the exception in place of it."""
    if value is None or isinstance(value, bool):
        return {None: "null", True: "true", False: "false"}[value]
    if isinstance(value, jentry.ProcessorThrew):
        return f"threw {value.number} {value.name} {value.text or ''}".rstrip()
    if isinstance(value, jentry.Denied):
        return f"denied {value.number} {value.name}"
    return f"{int(value)}i" if isinstance(value, jentry.Int) else str(value)


def line_of(kind, answer):
    """Returns the line of an answer, given the kind of its reply."""
    if isinstance(answer, jentry.Refused):
        return f"refused {answer.number}, detail {answer.detail}"
    if isinstance(answer, jentry.Error):
        return text_of(answer)
    if kind == tables.DEFINED:
        return f"defined class={answer.number} steps={answer.steps} words={answer.words}"
    if kind == tables.RESULTS:
        return ("results " + ", ".join(f"{key}: {text_of(it)}" for key, it in answer.items())).rstrip()
    if kind == tables.DONE:
        return "done"
    name = {tables.VALUE: "value", tables.FLAG: "flag", tables.RESULT: "result"}[kind]
    return f"{name} {'none' if kind == tables.VALUE and answer is None else text_of(answer)}"


class Threads(unittest.TestCase):
    def test_requests_are_written(self):
        for row in sent():
            with self.subTest(line=row.line):
                self.assertEqual(request_of(row).frame(), row.frame)
        self.assertEqual([row.frame for row in golden.requests() if row.line == "end"], [requests.END])

    def test_replies_are_read(self):
        for row in received():
            with self.subTest(line=row.line):
                answer = requests.read_answer(asked(row), row.frame[4:])
                self.assertEqual(line_of(row.frame[4], answer), row.line)
        self.assertEqual([row.frame[4:] for row in golden.replies() if row.line == "end"], [requests.ENDED])

    def test_a_reply_that_is_cut_or_longer_is_none(self):
        for row in received():
            for text in (row.frame[4:-1], row.frame[4:] + b"\0"):
                with self.subTest(line=row.line), self.assertRaises(jentry.StreamEnded):
                    requests.read_answer(asked(row), text)


class Written:
    """The end of a connection to which a cache writes."""

    def __init__(self):
        self.text = b""

    def write(self, text):
        self.text += text

    def is_closing(self):
        return False

    def close(self):
        pass

    async def wait_closed(self):
        pass


class Loop(unittest.TestCase):
    def exchanged(self, request, reply):
        """Returns the bytes that a cache writes for a request, and its answer or its error for a reply."""

        async def exchange():
            reader, writer = asyncio.StreamReader(), Written()
            async with jentry_aio.Cache(reader, writer) as cache:
                future = cache._ask(request, PATIENCE)
                await asyncio.sleep(0)
                reader.feed_data(reply + b"\0\0\0\1" + requests.ENDED)
                (answer,) = await asyncio.gather(future, return_exceptions=True)
            return writer.text, answer

        return asyncio.run(exchange())

    def test_requests_are_written(self):
        for row in sent():
            with self.subTest(line=row.line):
                written, _ = self.exchanged(request_of(row), b"\0\0\0\2\x08\1")
                self.assertEqual(written, row.frame + requests.END)

    def test_replies_are_read(self):
        for row in received():
            with self.subTest(line=row.line):
                _, answer = self.exchanged(asked(row), row.frame)
                self.assertEqual(line_of(row.frame[4], answer), row.line)


if __name__ == "__main__":
    unittest.main()
