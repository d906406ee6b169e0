"""Sends random commands with random arguments, and hostile classes: the server stays up, and every reply is valid.

JENTRY_RANDOM is the number of commands.
"""
import os
import random
import subprocess
import sys
import tempfile

from module_test import ModuleTest
from servers import EXAMPLES, ReplyError, Server, class_file, examples, row_classes

COMMANDS = int(os.environ.get("JENTRY_RANDOM", 5_000))
PIPE = 20
MOST_SECONDS = 2
"""What no class may take of a processor to be judged: it holds all other clients up."""
NAMES = [
    "DEFINE",
    "INVOKE",
    "INVOKE",
    "INVOKE",
    "DETAIL",
    "PEEK",
    "APPLY",
    "INVOKEALL",
    "LIST",
    "CLASS",
    "EXPLAIN",
    "FORGET",
    "EXISTS",
    "STATS",
    "HELP",
]
LEAST, MOST = -(2**63), 2**63 - 1


def damaged(file, chosen):
    """Returns a class file with some bytes changed, removed or repeated."""
    file = bytearray(file)
    for _ in range(chosen.randrange(4)):
        place = chosen.randrange(len(file)) if file else 0
        kind = chosen.randrange(4)
        if kind == 0 and file:
            file[place] = chosen.randrange(256)
        elif kind == 1:
            del file[place : place + chosen.randrange(20)]
        elif kind == 2:
            file[place:place] = bytes(chosen.randrange(256) for _ in range(chosen.randrange(8)))
        else:
            del file[place:]
    return bytes(file)


class Words:
    """Random arguments for each position of a command, most of them almost valid."""

    def __init__(self, seed):
        self.chosen = random.Random(seed)
        self.files = [class_file(name) for name in examples() + examples("refused")]
        self.ids = ["0" * 40, "", "x" * 40]

    def number(self):
        return self.chosen.choice([0, 1, -1, 7, LEAST, MOST, 2**31, 2**63, 10**30, self.chosen.getrandbits(63)])

    def junk(self):
        return self.chosen.choice(
            [
                b"",
                b"\0",
                b"\xff" * 40,
                b"-",
                b":",
                b"i",
                b"null",
                b"1i",
                b"\r\n",
                b"%s%n",
                b"9" * 40,
                bytes(self.chosen.randrange(256) for _ in range(self.chosen.randrange(60))),
            ]
        )

    def key(self):
        return self.chosen.choice(
            [
                f"k:{self.chosen.randrange(8)}",
                f"k:{self.number()}",
                "k:0007",
                "list:1",
                "text:1",
                f"{self.number()}",
                self.junk(),
            ]
        )

    def args(self):
        return [
            self.chosen.choice(
                [self.number(), f"{self.chosen.randrange(-5, 5)}i", "null", "true", "false", self.junk()]
            )
            if self.chosen.random() < 0.2
            else self.chosen.randrange(10)
            for _ in range(self.chosen.choice([0, 1, 1, 2, 3, 8, 9]))
        ]

    def command(self):
        name = self.chosen.choice(NAMES)
        some_id, file = self.chosen.choice(self.ids), self.chosen.choice(self.files)
        if name in ("DEFINE", "EXPLAIN"):
            words = [damaged(file, self.chosen) if self.chosen.random() < 0.6 else file]
        elif name in ("CLASS", "FORGET", "EXISTS", "STATS"):
            words = [some_id]
        elif name in ("LIST", "HELP"):
            words = []
        elif name == "APPLY":
            times = [self.chosen.choice([-2, -1, 0, 1, 1000, self.number()]) for _ in range(3)]
            words = [*times, self.chosen.choice(["do", "dry", "DO", self.junk()]), some_id, self.key(), *self.args()]
        elif name == "INVOKEALL":
            keys = [self.key() for _ in range(self.chosen.randrange(5))]
            count = len(keys) if self.chosen.random() < 0.8 else self.number()
            words = [some_id, count, *keys, *self.args()]
        else:
            words = [some_id, self.key(), *self.args()]
        if self.chosen.random() < 0.05:
            words = words[: self.chosen.randrange(len(words) + 1)] + [
                self.junk() for _ in range(self.chosen.randrange(3))
            ]
        return ["JENTRY." + name, *words]


class RandomCommands(ModuleTest):
    def test_no_crash(self):
        words = Words(60)
        with Server() as server, server.open() as line:
            line.get("LPUSH", "list:1", 1)
            line.get("SET", "text:1", "x")
            counted = {"replies": 0, "errors": 0}
            for _ in range(0, COMMANDS, PIPE):
                commands = [words.command() for _ in range(PIPE)]
                for command in commands:
                    line.send(*command)
                for command in commands:
                    told = line.take()
                    counted["errors" if isinstance(told, ReplyError) else "replies"] += 1
                    if command[0] == "JENTRY.DEFINE" and isinstance(told, list):
                        words.ids = (words.ids + [told[0]])[-12:]
            print(f"random commands: {counted}", flush=True)
            self.assertGreater(counted["replies"], COMMANDS // 5)
            self.assertGreater(counted["errors"], COMMANDS // 5)
            self.assertEqual(line.ask("PING"), b"PONG")
            self.assertNotIn("AddressSanitizer", server.log())

    def judge(self, server, line, name, file):
        """Explains, defines and, if accepted, runs a class. Returns the CPU seconds of the slowest of these commands."""
        longest, words = 0, [("JENTRY.EXPLAIN", file), ("JENTRY.DEFINE", file)]
        for command in words:
            before = server.processor_seconds()
            told = line.ask(*command)
            longest = max(longest, server.processor_seconds() - before)
            with self.subTest(name=name):
                self.assertIsInstance(told, (list, bytes, int, type(None), ReplyError))
                self.assertLess(longest, MOST_SECONDS)
            if isinstance(told, list):
                words.append(("JENTRY.INVOKE", told[0], "v:1"))
        return longest

    def test_hostile_classes(self):
        with Server(arguments=("max-steps", 4_000_000)) as server, server.open() as line:
            taken = {
                name: self.judge(server, line, name, file) for name, file in [*hostile_classes(), *costly_classes()]
            }
            worst = max(taken, key=taken.get)
            print(
                f"{len(taken)} hostile classes: {worst} takes {taken[worst] * 1000:.0f} ms of a processor", flush=True
            )
            self.assertGreater(len(taken), 80)
            self.assertEqual(line.ask("PING"), b"PONG")
            self.assertNotIn("AddressSanitizer", server.log())


def costly_classes():
    """Yields classes of 64 KB, each of which repeats one part of a class as often as possible."""
    with tempfile.TemporaryDirectory(prefix="jentry-costly-") as folder:
        subprocess.run(
            [sys.executable, "-B", os.path.join(EXAMPLES, "costly.py"), "--only-write", folder],
            stdout=subprocess.DEVNULL,
            check=True,
        )
        for name in sorted(os.listdir(folder)):
            with open(os.path.join(folder, name), "rb") as file:
                yield name, file.read()


def hostile_classes():
    """Yields classes of up to 64 KB that are expensive to parse or to verify."""
    rows = row_classes()
    yield "most bytes", class_file("Plus") + bytes(65_536 - len(class_file("Plus")))
    yield "too many bytes", class_file("Plus") + bytes(65_537 - len(class_file("Plus")))
    yield "zeroes", bytes(65_536)
    yield "magic and ones", b"\xca\xfe\xba\xbe" + b"\xff" * 65_532
    yield "a pool of names", b"\xca\xfe\xba\xbe\0\0\0\x34\xff\xff" + b"\1\0\0" * 21_842
    yield "a pool of longs", b"\xca\xfe\xba\xbe\0\0\0\x34\xff\xff" + b"\5\0\0\0\0\0\0\0\0" * 7_280
    yield "a pool of references", b"\xca\xfe\xba\xbe\0\0\0\x34\xff\xff" + b"\x0a\xff\xfe\xff\xfe" * 13_104
    yield "many joins", rows.diamond(8000)
    yield "a line of calls", rows.line_of(63, 2)
    for name in ("TooLarge", "TooManySteps", "TwoBigArrays", "DeepChain"):
        yield name, class_file("refused/" + name)
