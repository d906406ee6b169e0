"""Tests the exceptions that a processor throws itself: the errors of each command with their texts, and what INFO and STATS count."""
import os
import sys

from commands_test import OneServer
from module_test import ModuleTest
from servers import HERE, ReplyError, Server, wait_for

sys.path.append(os.path.join(HERE, "../../tests"))
from throwing_classes import EXCEPTIONS, throwing  # noqa: E402  (it is one of the clients' other tests)

MOST_TEXT = 1024
"""The most bytes of a text that a reply has."""


def name_of(number):
    return EXCEPTIONS[number].rpartition("/")[2]


class Thrown(OneServer):
    def thrower(self, number, modified=None, **how):
        """Defines a class that throws the exception with this number, and returns its id. `modified` is its text in modified UTF-8."""
        return self.line.get("JENTRY.DEFINE", throwing(number, modified, **how))[0]

    def told(self, modified):
        """Returns the text that the error of an exception with this text has."""
        told = self.ask("JENTRY.INVOKE", self.thrower(8, modified), "v:1")
        self.assertIsInstance(told, ReplyError)
        begin = "THREW 8 IllegalArgumentException"
        self.assertEqual(str(told)[: len(begin)], begin)
        return str(told)[len(begin) :]

    def test_each_exception(self):
        self.line.get("SET", "v:1", 41)
        for number in EXCEPTIONS:
            for modified in (None, b"sold out"):
                for how in ({}, {"sets": True}, {"fillers": 300}):
                    thrower = self.thrower(number, modified, **how)
                    text = f"THREW {number} {name_of(number)}" + (" sold out" if modified else "")
                    for words in (
                        ["INVOKE", thrower, "v:1"],
                        ["DETAIL", thrower, "v:1", 5],
                        ["PEEK", thrower, "v:1"],
                        ["APPLY", -1, -1, -1, "do", thrower, "v:1"],
                        ["APPLY", 5, 0, 0, "dry", thrower, "v:2"],
                    ):
                        with self.subTest(number=number, modified=modified, how=how, words=words):
                            self.fails(self.ask("JENTRY." + words[0], *words[1:]), text)
        self.assertEqual(self.ask("MGET", "v:1", "v:2"), [b"41", None])

    def test_several_keys(self):
        self.line.get("MSET", "v:1", 41, "v:3", "x")
        thrower = self.thrower(9, b"sold out", sets=True)
        told = self.ask("JENTRY.INVOKEALL", thrower, 4, "v:1", "v:2", "v:3", "v:1")
        thrown = "THREW 9 IllegalStateException sold out"
        self.assertEqual(
            [str(it) for it in told], [thrown, thrown, "ERR value is not an integer or out of range", thrown]
        )
        self.assertEqual(self.ask("MGET", "v:1", "v:2", "v:3"), [b"41", None, b"x"])

    def test_exceptions_of_the_machine_have_no_text(self):
        self.fails(self.ask("JENTRY.INVOKE", self.add, "v:1"), "THREW 2 ArrayIndexOutOfBoundsException")
        self.fails(self.ask("JENTRY.INVOKE", self.define(self.line, "Ratio"), "v:1"), "THREW 3 NullPointerException")

    def test_texts_of_classes_are_apart(self):
        """The texts have the same index in classes that otherwise differ in nothing."""
        throwers = {text: self.thrower(9, text) for text in (b"one", b"two", b"six")}
        for text, thrower in [*throwers.items(), *reversed(throwers.items())]:
            self.fails(self.ask("JENTRY.INVOKE", thrower, "v:1"), f"THREW 9 IllegalStateException {text.decode()}")

    def test_an_error_is_one_line_of_utf_8(self):
        for modified, text in (
            (None, ""),
            (b"", " "),
            (b"a", " a"),
            (b" a ", "  a "),
            (b"a\r\nb\nc\td\x1be\x7ff", " a  b c d e f"),
            (b"\r\n", "   "),
            (b"a\xc0\x80b", " a b"),
            (b"a\xc2\x85b", " a b"),
            ("\u0416 \u00e9 \u20ac".encode(), " \u0416 \u00e9 \u20ac"),
            (b"\xed\xa0\xbd\xed\xb8\x80", " \U0001f600"),
            (b"\xed\xa0\xbd", " \ufffd"),
            (b"\xed\xb8\x80\xed\xa0\xbd", " \ufffd\ufffd"),
            (b"-ERR $5 *3 %s %n 'x'", " -ERR $5 *3 %s %n 'x'"),
        ):
            with self.subTest(modified=modified):
                self.assertEqual(self.told(modified), text)
                self.assertEqual(self.ask("PING"), b"PONG")

    def test_a_long_text_is_cut(self):
        for count in (MOST_TEXT - 1, MOST_TEXT):
            self.assertEqual(self.told(b"n" * count), " " + "n" * count)
        for count in (MOST_TEXT + 1, 65_000 - 1024):
            self.assertEqual(self.told(b"n" * count), " " + "n" * MOST_TEXT + "..")
        for character, modified in (("\u20ac", "\u20ac".encode()), ("\U0001f600", b"\xed\xa0\xbd\xed\xb8\x80")):
            for before in range(len(modified)):
                told = self.told(b"n" * before + modified * 1000)
                self.assertRegex(told, f"^ n{{{before}}}{character}+\\.\\.$")
                self.assertLess(MOST_TEXT - 1 - before - len(modified), told.count(character) * len(modified))

    def test_scripts_and_transactions(self):
        thrower = self.thrower(9, b"sold\r\nout")
        thrown = "THREW 9 IllegalStateException sold  out"
        script = "local told = redis.pcall('JENTRY.INVOKE', ARGV[1], KEYS[1]) return {told.err, redis.call('PING')}"
        told = self.ask("EVAL", script, 1, "v:1", thrower)
        self.assertEqual(told, [thrown.encode(), b"PONG"])
        self.line.get("MULTI")
        self.ask("JENTRY.INVOKE", thrower, "v:1")
        self.ask("JENTRY.INVOKE", self.add, "v:1", 5)
        told = self.ask("EXEC")
        self.assertEqual([str(told[0]), told[1]], [thrown, 5])


class Counted(ModuleTest):
    def test_info_and_stats(self):
        with Server() as server, server.open() as line:
            throwers = {number: line.get("JENTRY.DEFINE", throwing(number, b"no"))[0] for number in EXCEPTIONS}
            for number, thrower in throwers.items():
                for _ in range(number):
                    self.assertIsInstance(line.ask("JENTRY.INVOKE", thrower, "v:1"), ReplyError)
                line.get("JENTRY.INVOKEALL", thrower, 2, "v:1", "v:2")
            told = line.info("jentry")
            counts = {number: int(told[f"jentry_exceptions_{number}_total"]) for number in range(1, 11)}
            self.assertEqual(counts, {number: number + 2 if number in EXCEPTIONS else 0 for number in range(1, 11)})
            self.assertNotIn("jentry_exceptions_11_total", told)
            self.assertEqual(int(told["jentry_runs_total"]), sum(counts.values()))
            for number, thrower in throwers.items():
                self.assertEqual(line.get("JENTRY.STATS", thrower)[0][2::2], [number + 2] * 2)

    def test_replicas_and_files_get_nothing_of_it(self):
        with Server("--appendonly", "yes") as server, server.open() as line, Server() as replica:
            with replica.open() as other:
                other.get("REPLICAOF", "127.0.0.1", server.port)
                wait_for(lambda: other.info("replication").get("master_link_status") == "up", "the link")
                line.get("SET", "v:1", 41)
                thrower = line.get("JENTRY.DEFINE", throwing(9, b"sold out", sets=True))[0]
                offset = lambda: int(line.info("replication")["master_repl_offset"])
                self.assertEqual(line.ask("WAIT", 1, 10_000), 1)
                before = offset()
                for _ in range(100):
                    self.assertIsInstance(line.ask("JENTRY.INVOKE", thrower, "v:1"), ReplyError)
                # A replica gets a PING each ten seconds.
                self.assertLess(offset() - before, 100)
                self.assertEqual(line.ask("WAIT", 1, 10_000), 1)
                self.assertEqual(other.get("GET", "v:1"), b"41")
            server.restart()
            with server.open() as again:
                self.assertEqual(again.get("GET", "v:1"), b"41")
                self.fails(again.ask("JENTRY.INVOKE", thrower, "v:1"), "THREW 9 IllegalStateException sold out")

    def test_texts_after_the_engine_has_changed(self):
        """An engine of the module ends after some hundred classes that it forgot, and the others run in the next one."""
        with Server() as server, server.open() as line:
            throwers = [line.get("JENTRY.DEFINE", throwing(9, b"text %d" % place))[0] for place in range(3)]
            for _ in range(600):
                line.get("JENTRY.FORGET", line.get("JENTRY.DEFINE", throwing(8))[0])
            for place in (2, 0, 1, 2):
                self.fails(
                    line.ask("JENTRY.INVOKE", throwers[place], "v:1"), f"THREW 9 IllegalStateException text {place}"
                )
