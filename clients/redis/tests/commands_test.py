"""Tests the commands on one server, with the exact bytes of replies and errors."""
import hashlib
import os
import random
import re
import time

from module_test import NEEDS_PROGRAM, NO_CLASS, ModuleTest
from servers import ReplyError, Server, class_file, examples, path_of, program, row_classes

TRIES = int(os.environ.get("JENTRY_TRIES", 100 if os.environ.get("JENTRY_TRIAL") else 1000))
"""How many runs are held to those of the program: a trial build of it is slow."""
NOT_A_LONG = "ERR value is not an integer or out of range"
NO_KEY = "ERR the key doesn't end in a decimal long"
LEAST, MOST = -(2**63), 2**63 - 1
NUMBERS = [0, 1, 5, 41, 2**31 - 1, 2**31, MOST]
"""`jentry run` takes none that is negative."""


class OneServer(ModuleTest):
    @classmethod
    def setUpClass(cls):
        cls.server = Server()
        cls.addClassCleanup(cls.server.__exit__)

    def setUp(self):
        self.line = self.server.open()
        self.addCleanup(self.line.close)
        self.line.get("FLUSHALL")
        self.add = self.define(self.line, "Add")

    def ask(self, *words):
        return self.line.ask(*words)


class Classes(OneServer):
    def test_define_replies_id_and_bounds(self):
        file = class_file("Add")
        told = self.line.get("JENTRY.DEFINE", file)
        self.assertEqual(told, [hashlib.sha1(file).hexdigest().encode(), 29, 0, 17, 2])
        self.assertEqual(self.line.get("JENTRY.DEFINE", file), told)

    def test_list_and_class(self):
        plus = self.define(self.line, "Plus")
        listed = {row[0]: row[1:] for row in self.line.get("JENTRY.LIST")}
        self.assertEqual(listed[self.add][:7], [29, 0, 17, 2, len(class_file("Add")), b"Add", b"default"])
        self.assertEqual(listed[plus][:7], [14, 0, 9, 1, len(class_file("Plus")), b"Row", b"default"])
        self.assertEqual(list(listed), sorted(listed))
        self.assertEqual(self.line.get("JENTRY.CLASS", plus), class_file("Plus"))
        self.assertIsNone(self.line.get("JENTRY.CLASS", b"0" * 40))

    def test_ids_in_upper_case_and_texts_that_are_no_ids(self):
        self.assertEqual(self.line.get("JENTRY.CLASS", self.add.upper()), class_file("Add"))
        self.assertEqual(self.line.get("JENTRY.INVOKE", self.add.upper(), "v:1", 5), 5)
        self.assertEqual(self.line.get("JENTRY.INVOKE", self.add[:20] + self.add[20:].upper(), "v:1", 5), 10)
        mixed = {b"": "", b"g" * 40: "g" * 40, self.add[:-1]: None, self.add + b"0": None, b"a\0b\r\n": r"a\x00b\r\n"}
        for text, shown in {**mixed, b"x" * 100: "x" * 48 + ".."}.items():
            shown = text.decode() if shown is None else shown
            for words in (
                ["INVOKE", text, "v:1", 5],
                ["DETAIL", text, "v:1", 5],
                ["PEEK", text, "v:1", 5],
                ["INVOKEALL", text, 1, "v:1", 5],
                ["APPLY", -1, -1, -1, "do", text, "v:1", 5],
                ["CLASS", text],
                ["FORGET", text],
                ["EXISTS", self.add, text],
                ["STATS", self.add, text],
            ):
                self.fails(
                    self.ask("JENTRY." + words[0], *words[1:]),
                    f"ERR '{shown}' is no class id: an id has 40 hexadecimal digits",
                )
        self.assertEqual(self.ask("GET", "v:1"), b"10")
        self.assertEqual(self.ask("JENTRY.FORGET", self.add.upper()), 1)

    def test_names(self):
        """A class in a package has dots in its name; that of Plus is Row."""
        plus = class_file("Plus").replace(b"\1\0\3Row", b"\1\0\x0borg/a/b/Row")
        named = {self.line.get("JENTRY.DEFINE", plus)[0]: b"org.a.b.Row", self.add: b"Add"}
        named[self.define(self.line, "CompareAndSet")] = b"CompareAndSet"
        told = {row[0]: row[6] for row in self.line.get("JENTRY.LIST")}
        self.assertEqual({name: told[name] for name in named}, named)

    def test_stats(self):
        plus, cas = self.define(self.line, "Plus"), self.define(self.line, "CompareAndSet")
        for row in self.line.get("JENTRY.STATS"):
            self.line.get("JENTRY.FORGET", row[0])
        for name in ("Add", "Plus", "CompareAndSet"):
            self.define(self.line, name)
        begun = time.time() * 1000
        self.ask("JENTRY.INVOKE", self.add, "v:1", 5)
        self.ask("JENTRY.INVOKE", self.add, "v:1", 5)
        self.ask("JENTRY.INVOKEALL", self.add, 2, "v:1", "v:2")
        self.ask("JENTRY.PEEK", plus, "v:1")
        self.ask("JENTRY.APPLY", -1, -1, -1, "dry", plus, "v:1")
        told = {row[0]: row[1:] for row in self.line.get("JENTRY.STATS")}
        self.assertEqual([told[self.add][place] for place in (0, 1, 3)], [b"Add", 4, 2])
        steps = 23 + 29 + self.line.get("JENTRY.STATS", plus)[0][3]
        self.assertTrue(steps - 28 < told[self.add][2] + told[plus][2] - 0 < steps + 2 * 29, told)
        self.assertEqual([told[plus][place] for place in (0, 1, 3)], [b"Row", 2, 0])
        self.assertEqual(told[cas], [b"CompareAndSet", 0, 0, 0, None])
        for name in (self.add, plus):
            self.assertTrue(begun - 1 <= told[name][4] <= time.time() * 1000 + 1)
        some = self.line.get("JENTRY.STATS", plus, "0" * 40, self.add.upper())
        self.assertEqual([row and row[0] for row in some], [plus, None, self.add])
        self.line.get("JENTRY.FORGET", plus)
        self.define(self.line, "Plus")
        self.assertEqual(self.line.get("JENTRY.STATS", plus), [[plus, b"Row", 0, 0, 0, None]])

    def test_exists(self):
        self.assertEqual(self.ask("JENTRY.EXISTS", self.add), [1])
        self.assertEqual(self.ask("JENTRY.EXISTS", "0" * 40, self.add.upper(), self.add), [0, 1, 1])
        self.line.get("JENTRY.FORGET", self.add)
        self.line.get("MULTI")
        self.ask("JENTRY.EXISTS", self.add)
        self.ask("JENTRY.DEFINE", class_file("Add"))
        self.ask("JENTRY.EXISTS", self.add)
        told = self.ask("EXEC")
        self.assertEqual((told[0], told[2]), ([0], [1]))

    def test_forget(self):
        count = len(self.line.get("JENTRY.LIST"))
        self.assertEqual(self.ask("JENTRY.FORGET", self.add), 1)
        self.assertEqual(self.ask("JENTRY.FORGET", self.add), 0)
        self.assertEqual(self.ask("JENTRY.FORGET", b"0" * 40), 0)
        self.assertEqual(len(self.line.get("JENTRY.LIST")), count - 1)
        self.fails(self.ask("JENTRY.INVOKE", self.add, "v:1", 5), NO_CLASS)
        plus = self.define(self.line, "Plus")
        self.assertEqual(self.define(self.line, "Add"), self.add)
        self.line.get("MSET", "v:1", 10, "v:2", 20)
        self.assertEqual(
            [self.ask("JENTRY.INVOKE", self.add, "v:1", 5), self.ask("JENTRY.INVOKE", plus, "v:2")], [15, 21]
        )

    @NEEDS_PROGRAM
    def test_each_refused_example_is_refused_as_the_program_says(self):
        names = examples("refused")
        self.assertGreater(len(names), 40)
        for name in names:
            file, said = class_file(name), program("explain", path_of(name)).splitlines()
            with self.subTest(name=name):
                verdict = re.fullmatch(r"refused (\d+) (\w+)(| opcode \d+| at \d+)", said[0])
                methods = [line[7:] for line in said if line.startswith("method ") and " steps=" not in line]
                self.assertLess(len(methods), 2)
                where = "".join(" in " + method for method in methods)
                where += "".join(" line " + line[5:] for line in said if line.startswith("line "))
                text = f"REFUSED {verdict[1]} {verdict[2]}{verdict[3]}{where}: {said[-1]}"
                self.fails(self.ask("JENTRY.DEFINE", file), text)
                self.assertIsNone(self.ask("JENTRY.CLASS", hashlib.sha1(file).hexdigest()))

    def test_refusals_by_their_texts(self):
        told = self.ask("JENTRY.DEFINE", class_file("refused/Loop"))
        self.fails(
            told,
            "REFUSED 20 BackwardBranch in Object process(MutableEntry, Object...) line 8: "
            "Loops aren't accepted as they are: compile the class with jentry-compile, "
            "which writes the passes of counted loops out, or use a formula.",
        )
        self.assertRegex(
            str(self.ask("JENTRY.DEFINE", class_file("refused/Text"))), r"^REFUSED 17 OutsideProfile opcode 18 in .*: "
        )
        self.fails(
            self.ask("JENTRY.DEFINE", class_file("refused/TooManySteps")),
            "REFUSED 27 StepLimit: Some way through the code has more than 4,000,000 instructions: make fewer calls.",
        )
        self.assertRegex(str(self.ask("JENTRY.DEFINE", "")), r"^REFUSED 2 Truncated")
        self.assertRegex(str(self.ask("JENTRY.DEFINE", "x" * 20)), r"^REFUSED 3 BadMagic")
        self.assertRegex(str(self.ask("JENTRY.DEFINE", b"\xca\xfe\xba\xbe" + bytes(65_533))), r"^REFUSED 1 TooLarge")

    @NEEDS_PROGRAM
    def test_explain_is_the_programs(self):
        for name in examples() + examples("refused"):
            with self.subTest(name=name):
                self.assertEqual(
                    self.line.get("JENTRY.EXPLAIN", class_file(name)).decode(), program("explain", path_of(name))
                )

    def test_too_many_classes(self):
        with Server() as server, server.open() as line:
            plus = class_file("Plus")
            self.assertEqual(plus.count(b"\1\0\3Row"), 1)
            for number in range(4096):
                line.send("JENTRY.DEFINE", plus.replace(b"\1\0\3Row", b"\1\0\7Row%04d" % number))
            self.assertEqual({told[1] for told in (line.take() for _ in range(4096))}, {14})
            self.fails(line.ask("JENTRY.DEFINE", plus), "ERR too many classes")
            again = line.get("JENTRY.DEFINE", plus.replace(b"\1\0\3Row", b"\1\0\7Row0007"))
            self.assertEqual(line.ask("JENTRY.FORGET", again[0]), 1)
            self.assertEqual(line.get("JENTRY.DEFINE", plus)[1], 14)


class Documented(OneServer):
    def test_help(self):
        lines = [line.decode() for line in self.line.get("JENTRY.HELP")]
        known = {row[0].decode().upper(): row[1] for row in self.line.get("COMMAND") if row[0].startswith(b"jentry.")}
        self.assertEqual({line.split()[0] for line in lines[::2]}, set(known))
        self.assertIn("JENTRY.INVOKE ID KEY [ARG ..]", lines)
        self.assertIn("    Runs a class on an entry.", lines)
        for line in lines[::2]:
            words = line.replace(" ..", "").split()
            least = sum(not word.startswith("[") for word in words)
            self.assertEqual(known[words[0]], -least if ".." in line else least, line)

    def documented(self, name):
        """Returns the arguments of COMMAND DOCS: for each its name, its type, its flags, and what it is one of."""
        pairs = lambda told: dict(zip(told[::2], told[1::2]))
        arguments = pairs(self.line.get("COMMAND", "DOCS", name)[1]).get(b"arguments", [])
        row = lambda it: (
            it[b"name"],
            it[b"type"],
            it.get(b"flags", []),
            [pairs(part) for part in it.get(b"arguments", [])],
        )
        return [row(pairs(it)) for it in arguments]

    def test_arguments(self):
        several = (b"arg", b"string", [b"optional", b"multiple"], [])
        self.assertEqual(
            self.documented("jentry.invokeall"),
            [(b"id", b"string", [], []), (b"n", b"integer", [], []), (b"key", b"key", [b"multiple"], []), several],
        )
        told = self.documented("jentry.apply")
        self.assertEqual(
            [row[0] for row in told], [b"created", b"updated", b"accessed", b"mode", b"id", b"key", b"arg"]
        )
        self.assertEqual(told[3][1], b"oneof")
        self.assertEqual(
            [(it[b"name"], it[b"type"], it[b"token"]) for it in told[3][3]],
            [(b"do", b"pure-token", b"do"), (b"dry", b"pure-token", b"dry")],
        )
        self.assertEqual(self.documented("jentry.list"), [])
        self.assertEqual(self.documented("jentry.exists"), [(b"id", b"string", [b"multiple"], [])])


class Runs(OneServer):
    def test_invoke(self):
        self.assertEqual(self.ask("JENTRY.INVOKE", self.add, "v:1", 5), 5)
        self.assertEqual(self.ask("JENTRY.INVOKE", self.add, "v:1", -7), -2)
        self.assertEqual(self.ask("GET", "v:1"), b"-2")
        self.assertEqual(self.ask("OBJECT", "ENCODING", "v:1"), b"int")

    def test_value_stays_an_integer(self):
        self.line.get("SET", "v:1", 123456)
        self.assertEqual(self.ask("JENTRY.INVOKE", self.add, "v:1", 0), 123456)
        self.assertEqual(self.ask("OBJECT", "ENCODING", "v:1"), b"int")
        cas = self.define(self.line, "CompareAndSet")
        self.assertEqual(self.ask("JENTRY.PEEK", cas, "v:1", 1, 2), 0)
        self.assertEqual(self.ask("OBJECT", "ENCODING", "v:1"), b"int")

    def test_detail(self):
        self.assertEqual(self.ask("JENTRY.DETAIL", self.add, "v:1", 5), [5, b"Long", b"put", 23, 0])
        self.assertEqual(self.ask("JENTRY.DETAIL", self.add, "v:1", 5), [10, b"Long", b"put", 29, 0])
        self.assertEqual(self.ask("JENTRY.DETAIL", self.add, "v:1", 0), [10, b"Long", b"keep", 29, 0])
        cas = self.define(self.line, "CompareAndSet")
        self.assertEqual(self.ask("JENTRY.DETAIL", cas, "v:1", 10, "null"), [1, b"Integer", b"delete", 42, 0])
        self.assertIsNone(self.ask("GET", "v:1"))
        limited = self.define(self.line, "BoundedIncrement")
        self.line.get("SET", "v:1", 3)
        self.assertEqual(self.ask("JENTRY.DETAIL", limited, "v:1", 3)[:3], [None, b"null", b"keep"])
        self.assertIsNone(self.ask("JENTRY.INVOKE", limited, "v:1", 3))

    def test_peek(self):
        cas = self.define(self.line, "CompareAndSet")
        self.line.get("SET", "v:1", 41)
        self.assertEqual(self.ask("JENTRY.PEEK", cas, "v:1", 40, 42), 0)
        self.fails(
            self.ask("JENTRY.PEEK", cas, "v:1", 41, 42), "WRITES the processor changes the entry: JENTRY.INVOKE it"
        )
        self.fails(
            self.ask("JENTRY.PEEK", cas, "v:1", 41, "null"), "WRITES the processor changes the entry: JENTRY.INVOKE it"
        )
        self.assertEqual(self.ask("GET", "v:1"), b"41")

    def test_keys(self):
        plus = self.define(self.line, "Plus")
        for key in (
            "7",
            "v:7",
            "{user9}:7",
            "a:b:7",
            ":7",
            "v:000000000007",
            "v:0000000000000000000000000000007",
            "007",
        ):
            self.line.get("SET", key, 41)
            self.assertEqual(self.ask("JENTRY.INVOKE", plus, key), 42)
        for key in (
            "v",
            "v:",
            "",
            ":",
            "v:+7",
            "v: 7",
            "v:7 ",
            "v:7x",
            "v:-",
            "v:--7",
            "v:9223372036854775808",
            "v:0x7",
            "v:7:",
            "v:1.0",
            b"v:\xff",
            "v:7\n",
        ):
            self.fails(self.ask("JENTRY.INVOKE", plus, key), NO_KEY)

    def test_the_key_is_the_processors(self):
        get_key = self.line.get("JENTRY.DEFINE", returns_key())[0]
        for key in (0, 7, MOST, LEAST, -7):
            for spelled in (f"s:{key}", f"s:{'-' * (key < 0)}000{abs(key)}"):
                self.assertEqual(self.ask("JENTRY.PEEK", get_key, spelled), key)

    def test_values(self):
        for value in (
            "x",
            "",
            "007",
            "+7",
            " 7",
            "7 ",
            "-0",
            "9223372036854775808",
            "-9223372036854775809",
            "1.0",
            "1e3",
        ):
            self.line.get("SET", "v:1", value)
            for command in ("JENTRY.INVOKE", "JENTRY.DETAIL", "JENTRY.PEEK"):
                self.fails(self.ask(command, self.add, "v:1", 1), NOT_A_LONG)
            self.assertEqual(self.ask("GET", "v:1"), value.encode())
            self.assertEqual(str(self.ask("INCR", "v:1")), NOT_A_LONG)
        for value in (LEAST, -1, 0, 9999, 10_000, MOST):
            self.line.get("SET", "v:1", value)
            self.assertEqual(self.ask("JENTRY.INVOKE", self.add, "v:1", 1), (value + 1 + 2**63) % 2**64 - 2**63)
        self.line.get("SET", "v:1", 1)
        self.line.get("APPEND", "v:1", 2)
        self.assertEqual(self.ask("JENTRY.INVOKE", self.add, "v:1", 1), 13)
        self.line.get("SET", "v:1", 9007199254740993)
        self.assertEqual(self.ask("JENTRY.INVOKE", self.add, "v:1", 1), 9007199254740994)

    def test_wrong_type(self):
        self.line.get("LPUSH", "v:1", 1)
        for command in ("JENTRY.INVOKE", "JENTRY.DETAIL", "JENTRY.PEEK"):
            self.fails(
                self.ask(command, self.add, "v:1", 1),
                "WRONGTYPE Operation against a key holding the wrong kind of value",
            )
        self.assertEqual(self.ask("LRANGE", "v:1", 0, -1), [b"1"])

    def test_arguments(self):
        for place, words in [
            (1, ["x"]),
            (1, [""]),
            (1, ["1I"]),
            (1, ["2147483648i"]),
            (1, ["-2147483649i"]),
            (1, ["i"]),
            (1, ["NULL"]),
            (1, ["TRUE"]),
            (1, ["falsei"]),
            (1, ["+1"]),
            (1, ["007"]),
            (1, ["9223372036854775808"]),
            (2, [1, "1.5"]),
            (8, [1, 2, 3, 4, 5, 6, 7, "8x"]),
        ]:
            self.fails(
                self.ask("JENTRY.INVOKE", self.add, "v:1", *words),
                f"ERR argument {place} is no long, Integer, Boolean or null",
            )
        self.fails(self.ask("JENTRY.INVOKE", self.add, "v:1", *range(9)), "ERR more than eight arguments")
        self.assertEqual(self.ask("EXISTS", "v:1"), 0)
        self.assertEqual(self.ask("JENTRY.INVOKE", self.add, "v:1", *range(1, 9)), 1)

    def test_booleans(self):
        reserve = self.define(self.line, "Reserve")
        self.line.get("SET", "v:1", 41)
        self.assertEqual(self.ask("JENTRY.INVOKE", reserve, "v:1", 50), 0)
        self.assertEqual(self.ask("JENTRY.PEEK", reserve, "v:1", 40, "true"), 1)
        self.assertEqual(self.ask("JENTRY.DETAIL", reserve, "v:1", 40, "true"), [1, b"Boolean", b"keep", 48, 0])
        self.assertEqual(self.ask("JENTRY.DETAIL", reserve, "v:1", 40, "false"), [1, b"Boolean", b"put", 51, 0])
        self.assertEqual(self.ask("JENTRY.DETAIL", reserve, "v:1", 40), [0, b"Boolean", b"keep", 38, 0])
        self.assertEqual(self.ask("JENTRY.DETAIL", reserve, "v:2", 40), [None, b"null", b"keep", 22, 0])
        self.assertEqual(self.ask("JENTRY.INVOKEALL", reserve, 3, "v:1", "v:2", "v:3", 1, "true"), [1, None, None])
        self.assertEqual(self.ask("GET", "v:1"), b"1")
        self.fails(self.ask("JENTRY.INVOKE", reserve, "v:1", 1, 1), "THREW 4 ClassCastException")
        self.fails(self.ask("JENTRY.INVOKE", reserve, "v:1", 1, "null"), "THREW 3 NullPointerException")
        self.fails(self.ask("JENTRY.INVOKE", self.add, "v:1", "true"), "THREW 4 ClassCastException")

    def test_thrown(self):
        self.line.get("SET", "v:1", 41)
        self.fails(self.ask("JENTRY.INVOKE", self.add, "v:1"), "THREW 2 ArrayIndexOutOfBoundsException")
        self.fails(self.ask("JENTRY.INVOKE", self.add, "v:1", "1i"), "THREW 4 ClassCastException")
        self.fails(self.ask("JENTRY.DETAIL", self.add, "v:1", "null"), "THREW 3 NullPointerException")
        ratio = self.define(self.line, "Ratio")
        self.line.get("SET", "v:2", 0)
        self.fails(self.ask("JENTRY.PEEK", ratio, "v:2"), "THREW 1 ArithmeticException")
        self.assertEqual(self.ask("MGET", "v:1", "v:2"), [b"41", b"0"])

    def test_order_of_errors(self):
        self.fails(self.ask("JENTRY.INVOKE", "0" * 40, "v", "x"), NO_CLASS)
        self.fails(self.ask("JENTRY.INVOKE", self.add, "v", "x"), NO_KEY)
        self.line.get("SET", "v:1", "y")
        self.fails(
            self.ask("JENTRY.INVOKE", self.add, "v:1", "x"), "ERR argument 1 is no long, Integer, Boolean or null"
        )

    def test_arity(self):
        for words in (
            ["DEFINE"],
            ["DEFINE", 1, 2],
            ["INVOKE", self.add],
            ["DETAIL", self.add],
            ["PEEK", self.add],
            ["LIST", 1],
            ["CLASS"],
            ["CLASS", 1, 2],
            ["EXISTS"],
            ["EXPLAIN"],
            ["EXPLAIN", 1, 2],
            ["FORGET"],
            ["FORGET", 1, 2],
            ["INVOKEALL", self.add, 1],
            ["APPLY", -1, -1, -1, "do", self.add],
        ):
            name = "jentry." + words[0].lower()
            self.fails(self.ask(name, *words[1:]), f"ERR wrong number of arguments for '{name}' command")

    @NEEDS_PROGRAM
    def test_examples_as_the_program_runs_them(self):
        random.seed(60)
        names = examples()
        calls = [(name, *random_call()) for name in names for _ in range(1 + TRIES // len(names))]
        ids = {name: self.define(self.line, name) for name in names}
        for name, key, before, words in calls:
            entry = f"e:{key}"
            self.line.get("DEL", entry) if before is None else self.line.get("SET", entry, before)
            told = lines_of(self.ask("JENTRY.DETAIL", ids[name], entry, *words), self.ask("GET", entry))
            said = program("run", path_of(name), key, "none" if before is None else before, *words)
            if "threw" in said:
                said = said[: said.index("steps")]
            self.assertEqual(told, said, (name, key, before, words))
        self.assertGreaterEqual(len(calls), TRIES)


def returns_key():
    """Returns the file of a class that returns its key."""
    rows = row_classes()
    get_key = [
        rows.utf8(b"getKey"),
        rows.name_and_type(rows.FURTHER, 24),
        rows.interface_methodref(16, rows.FURTHER + 1),
    ]
    return rows.class_of(rows.process(8, 3, b"\x2b\xb9" + rows.u2(rows.FURTHER + 2) + b"\1\0\xb0"), further=get_key)


def random_number():
    return random.choice([*NUMBERS, random.randrange(10**6), random.getrandbits(63)])


def random_call():
    """Returns a random key, entry and arguments."""
    words = [
        random.choice(
            [str(random_number()), str(random_number()), f"{random.randrange(2**31)}i", "null", "true", "false"]
        )
        for _ in range(random.randrange(4))
    ]
    return random_number(), random.choice([None, random_number(), random_number()]), words


def lines_of(told, entry):
    """Returns the lines that `jentry run` prints for a reply of DETAIL and the entry. The steps of a run that threw aren't reported, and `jentry run`
    doesn't print the text of an exception."""
    value = "none" if entry is None else entry.decode()
    if isinstance(told, ReplyError):
        _, number, name, *_ = str(told).split(" ")
        return f"threw {number} {name}\nvalue {value}\n"
    words = {b"null": "null", b"Integer": f"{told[0]}i", b"Boolean": "true" if told[0] else "false"}
    result = words.get(told[1], str(told[0]))
    return f"result {result}\nvalue {value}\nsteps {told[3]} words {told[4]}\n"


class SeveralKeys(OneServer):
    def test_invoke_all(self):
        self.line.get("MSET", "a:1", 1, "a:2", "x", "a:4", 4)
        self.line.get("LPUSH", "a:3", 1)
        told = self.ask("JENTRY.INVOKEALL", self.add, 6, "a:1", "a:2", "a:3", "a:4", "a:5", "a", 10)
        self.assertEqual(
            [str(it) if isinstance(it, ReplyError) else it for it in told],
            [11, NOT_A_LONG, "WRONGTYPE Operation against a key holding the wrong kind of value", 14, 10, NO_KEY],
        )
        self.assertEqual(self.ask("MGET", "a:1", "a:2", "a:4", "a:5"), [b"11", b"x", b"14", b"10"])

    def test_a_key_twice_and_what_is_thrown(self):
        self.assertEqual(self.ask("JENTRY.INVOKEALL", self.add, 3, "a:1", "a:1", "a:1", 1), [1, 2, 3])
        told = self.ask("JENTRY.INVOKEALL", self.add, 2, "a:1", "a:2")
        self.assertEqual([str(it) for it in told], ["THREW 2 ArrayIndexOutOfBoundsException"] * 2)
        limited = self.define(self.line, "BoundedIncrement")
        self.assertEqual(self.ask("JENTRY.INVOKEALL", limited, 2, "a:1", "a:2", 3), [None, 1])

    def test_errors_of_the_whole(self):
        self.fails(self.ask("JENTRY.INVOKEALL", "0" * 40, 1, "a:1", 1), NO_CLASS)
        self.fails(self.ask("JENTRY.INVOKEALL", self.add, 0, "a:1", 1), "ERR numkeys should be greater than 0")
        self.fails(self.ask("JENTRY.INVOKEALL", self.add, -1, "a:1", 1), "ERR numkeys should be greater than 0")
        self.fails(self.ask("JENTRY.INVOKEALL", self.add, "x", "a:1", 1), NOT_A_LONG)
        self.fails(
            self.ask("JENTRY.INVOKEALL", self.add, 3, "a:1", 1),
            "ERR Number of keys can't be greater than number of args",
        )
        self.fails(
            self.ask("JENTRY.INVOKEALL", self.add, MOST, "a:1", 1),
            "ERR Number of keys can't be greater than number of args",
        )
        self.fails(
            self.ask("JENTRY.INVOKEALL", self.add, 1, "a:1", "x"), "ERR argument 1 is no long, Integer, Boolean or null"
        )
        self.fails(self.ask("JENTRY.INVOKEALL", self.add, 1, "a:1", *range(9)), "ERR more than eight arguments")
        self.assertEqual(self.ask("DBSIZE"), 0)
