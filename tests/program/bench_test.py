"""The measuring program `bench`: its output, refusals and statuses, and that it does the work that it reports."""
import re
import time

import row_classes as rows
from running import Row, Runs, Told, proved_only, told

USAGE = (
    "usage: bench run FILE COUNT KEY VALUE [ARGS..] | bench verify FILE COUNT | bench calls FILE KEYS SEATS | "
    "bench rounds FILE JOBS SEATS | bench stripe FILE KEYS\n"
)
REFUSED, UNREAD = "error: the class is refused\n", "error: cannot read the file\n"
PLUS = rows.plus()
ROUNDS, CACHE_CALLS, OF_ROUNDS = 9, 65_536, 201
"""The number of rounds, of calls on a cache in each of them, and of rounds of jobs."""

TENTHS = r"(\d+)\.(\d)"
LINES = {
    "run": rf"run {TENTHS} ns, at least {TENTHS} ns, (\d+) steps, (\d+)\.(\d\d) ns a step, (\d+) steps in all\n",
    "verify": rf"verify {TENTHS} us, at least {TENTHS} us, (\d+) times accepted\n",
    "calls": rf"invoke {TENTHS} ns, at least {TENTHS} ns, put {TENTHS} ns, at least {TENTHS} ns, by (\d+) seats, entries of (-?\d+) and (-?\d+) in all\n",
    "rounds": rf"round {TENTHS} us, at least {TENTHS} us, (\d+) jobs a second, entries of (-?\d+) in all\n",
    "stripe": rf"put {TENTHS} ns, at least {TENTHS} ns, of an absent key {TENTHS} ns, at least {TENTHS} ns, "
    rf"invoke {TENTHS} ns, at least {TENTHS} ns, its run {TENTHS} ns, at least {TENTHS} ns, on (\d+) keys\n",
}
"""The form of each line."""

GET_KEY = [rows.utf8(b"getKey"), rows.name_and_type(rows.FURTHER, 24), rows.interface_methodref(16, rows.FURTHER + 1)]
"""The constants of `MutableEntry.getKey`, the last of which is the method."""
KEY = b"\x2b\xb9" + rows.u2(rows.FURTHER + 2) + b"\1\0\xc0\0\x12\xb6\0\x25"
"""aload_1, getKey, checkcast Long, longValue"""
IS_NULL = b"\x5c\x75\x81\x10\x3f\x7d"
"""Replaces a long by 0 if it is 0, and else by 1: dup2, lneg, lor, bipush 63, lushr."""
THROW_IF_ONE = b"\x75\x0a\x61\x6d"
"""lneg, lconst_1, ladd, ldiv: divides the 1 below the 0 or 1 on the stack by 1 less that number, which throws for 1."""


def expecting():
    """A processor that ends in 48 steps for the key -7 without an entry and with the first argument 5. It throws in step 17 for another key, in step
    36 for another argument, and in step 45 if there is an entry."""
    key = b"\x0a" + KEY + b"\x10\x07\x85\x61" + IS_NULL + THROW_IF_ONE + b"\x58"
    argument = b"\x0a\x2c\x03\x32\xc0\0\x12\xb6\0\x25\x08\x85\x65" + IS_NULL + THROW_IF_ONE + b"\x58"
    entry = b"\x0a\x2b\xb9\0\x16\1\0\x85" + THROW_IF_ONE + b"\x58"
    return rows.class_of(rows.process(8, 3, key + argument + entry + b"\x01\xb0"), further=GET_KEY)


def adding_below_96():
    """A processor that adds one to the entry of a key below 96, and throws for another key: it divides the one by 1 less the sign bit of 95 - key."""
    value = b"\x2b\xb9\0\x1a\1\0\xc0\0\x12\xb6\0\x25"
    one = b"\x0a\x10\x5f\x85" + KEY + b"\x65\x10\x3f\x7d" + THROW_IF_ONE
    code = value + one + b"\x61\x42\x2b\x21\xb8\0\x29\xb9\0\x1e\2\0\x01\xb0"
    return rows.class_of(rows.process(10, 5, code), further=GET_KEY)


@proved_only
class Bench(Runs):
    variable = "BENCH_PROGRAM"

    def numbers(self, words, file=PLUS):
        """Runs a measure, which has to end well and to print a line of its form with no median below the minimum. Returns the times in tenths, the
        other numbers, and the seconds that the run took."""
        began = time.monotonic()
        it = told(self.program, words, file)
        passed = time.monotonic() - began
        self.assertEqual((it.status, it.errors), (0, b""), words)
        found = re.fullmatch(LINES[words[0]], it.output.decode())
        self.assertIsNotNone(found, it.output)
        numbers = [int(word) for word in found.groups()]
        times = LINES[words[0]].count(TENTHS)
        tenths = [10 * whole + part for whole, part in zip(numbers[: 2 * times : 2], numbers[1 : 2 * times : 2])]
        for median, least in zip(tenths[::2], tenths[1::2]):
            self.assertLessEqual(least, median)
        return tenths, numbers[2 * times :], passed

    def test_lines_are_read(self):
        self.hold(
            Row(["run", "C", "0", *words.split()], 0, f"steps {steps} words 0\n", file=expecting())
            for words, steps in [("-7 none 5", 48), ("7 none 5", 17), ("-7 none 6", 36), ("-7 1 5", 45)]
        )
        self.hold(
            [
                Row(["run", "C", "0", "7", "41"], 0, "steps 14 words 0\n", file=PLUS),
                Row(["run", "C", "0", "7", "none"], 0, "steps 6 words 65536\n", file=rows.named("ArrMost")),
            ]
        )

    def test_other_lines_are_refused(self):
        self.hold(
            Row(words.split(), 1, errors=USAGE, file=PLUS)
            for words in [
                "",
                "runs C 2 3 4",
                "verify C",
                "verify C 2 3",
                "verify C 0",
                "run C 2 3",
                "run C two 3 4",
                "run C 2 3 nothing",
                "run C 2 3 4 x",
                "run C 2 3 4 1 2 3 4 5 6 7 8 9",
                "stripe C 5 1",
                "stripe C 0",
                "stripe C 1000001",
                "calls C 1000",
                "calls C 15 1",
                "calls C 1000001 1",
                "calls C 1000 0",
                "calls C 1000 17",
                "rounds C 8 two",
                "rounds C 0 1",
                "rounds C 4097 1",
                "rounds C 8 0",
                "rounds C 8 17",
            ]
        )

    def test_files_outputs_and_classes_fail(self):
        lines = ["run {} 0 7 41", "verify {} 2", "calls {} 1000 1", "rounds {} 8 1", "stripe {} 5"]
        self.hold(Row(line.format(name).split(), 3, errors=UNREAD) for line in lines for name in ("D", "."))
        # An empty file is no class. `verify` is left out, since it also measures classes that are refused.
        self.hold(Row(line.format("C").split(), 2, errors=REFUSED) for line in lines if not line.startswith("verify"))
        with open("/dev/full", "wb") as full:
            self.assertEqual(told(self.program, ["run", "C", "0", "7", "41"], PLUS, stdout=full), Told(3, None, b""))

    def test_work_is_done_in_each_round(self):
        (median, least), (steps, each, hundredths, in_all), passed = self.numbers(["run", "C", "3", "7", "41"])
        self.assertEqual((steps, in_all), (14, ROUNDS * 3 * 14))
        self.assertEqual(100 * each + hundredths, 10 * median // 14)
        self.assertLessEqual(ROUNDS * 3 * least, passed * 1e10)
        (_median, least), (accepted,), passed = self.numbers(["verify", "C", "2"])
        self.assertEqual(accepted, ROUNDS * 2)
        self.assertLessEqual(ROUNDS * 2 * least, passed * 1e7)
        _times, (accepted,), _passed = self.numbers(["verify", "C", "2"], b"")
        self.assertEqual(accepted, 0)

    def test_seats_put_and_invoke(self):
        """With 100 keys the calls use 96, as many on each stripe. An entry is 7 at first, each invocation adds one, and the puts set it to 7
        again."""
        for seats in (1, 2, 3, 16):
            times, (by, invoked, put), passed = self.numbers(["calls", "C", "100", str(seats)], adding_below_96())
            self.assertEqual((by, invoked, put), (seats, 7 * 100 + ROUNDS * CACHE_CALLS, 7 * 100))
            self.assertLessEqual(ROUNDS * CACHE_CALLS * (times[1] + times[3]), passed * 1e10)

    def test_a_round_leaves_its_entries(self):
        for jobs, seats in ((1, 1), (2, 2), (8, 4), (40, 16)):
            (median, least), (each_second, entries), passed = self.numbers(["rounds", "C", str(jobs), str(seats)])
            self.assertEqual(entries, (7 + OF_ROUNDS) * jobs)
            # The median is printed in whole tenths of a microsecond.
            self.assertGreaterEqual(each_second, jobs * 10**7 // (median + 1))
            self.assertLessEqual(each_second, jobs * 10**7 // median)
            self.assertLessEqual(OF_ROUNDS * least, passed * 1e7)

    def test_calls_on_one_stripe_are_timed(self):
        for keys in (3, 5000):
            _times, (on,), _passed = self.numbers(["stripe", "C", str(keys)])
            self.assertEqual(on, keys)
