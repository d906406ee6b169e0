"""Runs of the built programs, each in its own folder."""
import os
import subprocess
import tempfile
import unittest
from collections import namedtuple
from concurrent.futures import ThreadPoolExecutor

import pace

LIMIT = pace.patience(os.environ.get("JENTRY_PROGRAM"))
"""The time limit of a run, in seconds."""

proved_only = unittest.skipIf(
    os.environ.get("JENTRY_TRIAL"),
    "a trial build is slow, and checks its memory itself: only the proved program shows this",
)
"""Marks tests of the program's time and of its allocations."""

Told = namedtuple("Told", "status output errors")
"""The result of a run: its status, and the bytes of its standard output and of its standard error."""
Row = namedtuple("Row", "words status output errors file given", defaults=("", "", b"", b""))
"""The arguments of a run, its required result, the bytes of the file `C` that it may read, and those of its standard input."""


def told(program, words, file=b"", given=b"", **how):
    """Runs a program in a new folder with a file `C` of these bytes, and returns the result."""
    with tempfile.TemporaryDirectory() as folder:
        with open(os.path.join(folder, "C"), "wb") as it:
            it.write(file)
        to = {"stdout": subprocess.PIPE, "stderr": subprocess.PIPE, **how}
        ran = subprocess.run([program, *words], input=given, cwd=folder, timeout=LIMIT, **to)
    return Told(ran.returncode, ran.stdout, ran.stderr)


def side_by_side(call, rows):
    """Returns the results of a call for each row, in order. Several calls run at the same time."""
    with ThreadPoolExecutor(os.cpu_count() or 1) as pool:
        return list(pool.map(call, rows))


def as_bytes(text):
    return text if isinstance(text, bytes) else text.encode()


class Runs(unittest.TestCase):
    """Tests of a program, whose path is in the environment variable that `variable` names."""

    variable = None

    def setUp(self):
        self.program = os.environ[self.variable]

    def hold(self, rows):
        """Checks that the run of each row has exactly the row's result."""
        rows = list(rows)
        self.assertTrue(rows)
        for row, was in zip(rows, side_by_side(lambda row: told(self.program, row.words, row.file, row.given), rows)):
            with self.subTest(words=row.words):
                self.assertEqual(was, Told(row.status, as_bytes(row.output), as_bytes(row.errors)))
