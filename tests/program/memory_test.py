"""Lack of memory in `jentry` and in its library: each growth is refused in turn, by the library that bin/starve makes. The tests need a C
compiler."""
import itertools
import os
import re
import shutil
import subprocess
import tempfile
import unittest

from commands_test import ACCEPTED, ANSWER, NULL, PLUS, changed
from running import Runs, Told, proved_only, side_by_side, told

SOURCE = os.path.join(os.path.dirname(os.path.abspath(__file__)), "../../bin/starve.c")
GROWTHS = re.compile(rb"growths (\d+)\n")
LACKING = [
    Told(2, b"refused 30 NoMemory\n", b""),
    Told(3, b"", b"error: no memory\n"),
    Told(3, b"", b"serve fault 5 NoMemory\n"),
]
"""The results that a command may have when memory is exhausted."""


ENDED = bytes([0, 0, 0, 1, 9])
LACKED = bytes([0, 0, 0, 2, 8, 3])
LONG_ON_7 = bytes.fromhex("0000000000000007")
SCRIPT = (
    bytes([0, 0, 2, 0xD8, 1])
    + PLUS
    + bytes([0, 0, 0, 0x11, 2])
    + LONG_ON_7
    + bytes([0, 0, 0, 0, 0, 0, 0, 41])
    + bytes([0, 0, 0, 1, 8])
    + bytes([0, 0, 0, 0x0E, 6, 0, 0, 0, 0])
    + LONG_ON_7
    + bytes([0])
    + bytes([0, 0, 0, 0x18, 7, 0, 0, 0, 0, 0, 2])
    + LONG_ON_7
    + bytes([0, 0, 0, 0, 0, 0, 0, 8, 0])
    + bytes([0, 0, 0, 1, 8])
)
"""Plus is class 0, and 41 is put on key 7. A second round invokes Plus on key 7, and by another request on the keys 7 and 8."""


def outcome(job):
    """Returns the result of a job as replies encode it: a Long, the null pointer's exception, or the lack of memory."""
    return {"threw": bytes([1, 3]), "lacked": bytes([2, 3])}.get(job) or bytes([0, 1, 0, 0, 0, 0, 0, 0, 0, job])


def second_round(one, other, absent):
    """Returns the replies to the second round for these results of the jobs on the keys 7, 7 and 8."""
    result = bytes([6]) + outcome(one)
    results = bytes([7, 0, 2]) + LONG_ON_7 + outcome(other) + bytes([0, 0, 0, 0, 0, 0, 0, 8]) + outcome(absent)
    framed = [len(it).to_bytes(4, "big") + it for it in (result, results)]
    return (LACKED if one == "lacked" else framed[0]) + framed[1] + ENDED


def first_rounds():
    """Yields for each case whether Plus is class 0, whether key 7 is put, and the replies to the first round."""
    for is_defined, is_put in itertools.product([True, False], repeat=2):
        define = bytes.fromhex("0000000d01000000000000000e00000000" if is_defined else "00000006021e00000000")
        yield is_defined, is_put, define + (bytes([0, 0, 0, 1, 3]) if is_put else LACKED) + ENDED


def replies_to_script():
    """Yields all replies that the script may get when a growth is refused and the stream ends well."""
    put = [(42, 43), (43, 42), (42, "lacked"), ("lacked", 42), ("lacked", "lacked")]
    for is_defined, is_put, first in first_rounds():
        if not is_defined:
            yield first + 2 * bytes([0, 0, 0, 2, 8, 1]) + ENDED
            continue
        pairs = put if is_put else itertools.product(["threw", "lacked"], repeat=2)
        for (one, other), absent in itertools.product(pairs, ["threw", "lacked"]):
            yield first + second_round(one, other, absent)


def starved(program, library, words, file, number, given=b""):
    """Runs a command whose growth with this number is refused. Returns its result, and the number of its growths."""
    it = told(program, words, file, given, env={**os.environ, "LD_PRELOAD": library, "STARVE": str(number)})
    growths = GROWTHS.findall(it.errors)
    return it._replace(errors=GROWTHS.sub(b"", it.errors)), int(growths[-1]) if growths else None


@proved_only
@unittest.skipUnless(shutil.which("cc"), "there is no C compiler")
class Lacking(Runs):
    variable = "JENTRY_PROGRAM"

    def setUp(self):
        super().setUp()
        room = tempfile.TemporaryDirectory()
        self.addCleanup(room.cleanup)
        self.library = os.path.join(room.name, "starve.so")
        subprocess.run(["cc", "-O1", "-shared", "-fPIC", "-o", self.library, SOURCE, "-ldl"], check=True)

    def test_commands_answer_or_lack_memory(self):
        """Whichever growth is refused, the result of a command is a lack of memory, or its result with ample memory."""
        for words, file, ample in [
            (["check", "C"], PLUS, Told(0, ACCEPTED.encode(), b"")),
            (["run", "C", "7", "41", "1", "2i"], PLUS, Told(0, ANSWER.encode(), b"")),
            (["run", "C", "7", "none"], PLUS, Told(4, NULL.encode(), b"")),
            (["check", "C"], changed(0, 1), Told(2, b"refused 3 BadMagic\n", b"")),
            (["check", "C"], changed(725, 1), Told(2, b"refused 2 Truncated\n", b"")),
            (["serve", "--workers", "0", "--load", "C"], bytes(16 * 1000), Told(0, b"", b"")),
            (["serve", "--workers", "0", "--load", "C"], bytes(17), Told(1, b"", b"error: bad load file\n")),
        ]:
            self.command_answers_or_lacks_memory(words, file, ample)

    def command_answers_or_lacks_memory(self, words, file, ample):
        was, growths = starved(self.program, self.library, words, file, 0)
        self.assertEqual(was, ample)
        # All growths up to the refused one are those of the whole command, so a run has a growth with each of their numbers.
        self.assertTrue(growths)
        numbers = range(1, growths + 1)
        all_told = side_by_side(lambda number: starved(self.program, self.library, words, file, number), numbers)
        for number, (was, asked) in zip(numbers, all_told):
            with self.subTest(words=words, refused=number):
                self.assertIn(was, [ample, *LACKING])
                self.assertGreaterEqual(asked, number)
        self.assertTrue(any(was in LACKING for was, _asked in all_told))

    def test_a_script_is_served_or_lacks_memory(self):
        """Each growth of the script is refused in a run of its own."""
        ends = {Told(0, output, b"") for output in replies_to_script()}
        ends |= {
            Told(3, output, b"serve fault 5 NoMemory\n") for output in [b"", *(first for _, _, first in first_rounds())]
        }
        ends.add(Told(3, b"", b"error: no memory\n"))
        for count in ("0", "4"):
            words = ["serve", "--workers", count]
            whole, growths = starved(self.program, self.library, words, b"", 0, SCRIPT)
            self.assertEqual(whole.status, 0)
            self.assertIn(whole, ends)
            numbers = range(1, growths + 2)
            all_told = side_by_side(
                lambda number: starved(self.program, self.library, words, b"", number, SCRIPT), numbers
            )
            for number, (was, asked) in zip(numbers, all_told):
                with self.subTest(words=words, refused=number):
                    self.assertIn(was, ends)
                    self.assertEqual(asked < number, number > growths)
            self.assertTrue(any(was.status == 3 for was, _asked in all_told))
            self.assertTrue(any(was.status == 0 and was != whole for was, _asked in all_told))
