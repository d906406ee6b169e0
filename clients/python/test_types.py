#!/usr/bin/env python3
"""test_types: mypy --strict accepts the clients and a program that uses them, and refuses wrong uses."""
import os
import shutil
import subprocess
import sys
import tempfile
import unittest

HERE = os.path.dirname(os.path.abspath(__file__))
sys.path[:0] = [HERE, os.path.join(HERE, "../tests")]
from running import PATIENCE

PACKAGES = ("jentry", "jentry_aio", "jentry_processors")
USER = """
import asyncio
from typing import Dict, Optional

import jentry
import jentry_aio


def use(cache: jentry.Cache, file: bytes) -> Optional[int]:
    add: jentry.Class = cache.define(file, timeout=1.5)
    results: Dict[int, jentry.Outcome] = cache.invoke_all([7, 8], add, 1, jentry.Int(2), True, None)
    flag: bool = cache.put_if_absent(7, 1)
    with cache.round(timeout=2) as r:
        answers = [r.get(key) for key in range(10)]
        done = r.replace(1, 2)
    print(results, flag, [answer.result() for answer in answers], done.result() is True)
    return cache.get(7) if cache.contains(7) else cache.invoke(7, add, 1)


async def use_in_a_loop(path: str) -> None:
    async with await jentry_aio.connect(path, timeout=1, reconnect=10) as cache:
        values = await asyncio.gather(*(cache.get(key) for key in range(3)))
        print([value + 1 for value in values if value is not None], await cache.put_if_absent(1, 2), cache.reconnections)


with jentry.Cache.connect(("localhost", 7), timeout=1, reconnect=10, requests=100) as connected:
    try:
        use(connected, b"")
    except jentry.TimedOut as error:
        print(error.was_sent)
    except jentry.Denied as error:
        print(error.number, error.name)
    except jentry.ProcessorThrew as error:
        print(error.number + 1, error.name.upper(), error.text.upper() if error.text is not None else "")
"""
WRONG = (
    'cache.get("7")',
    "cache.put(1, None)",
    "cache.get(1) + 1",
    "cache.invoke(1, 0)",
    "cache.round().get(1) + 1",
    'cache.get(1, timeout="1")',
    "jentry.ProcessorThrew(9).text.upper()",
)


@unittest.skipUnless(shutil.which("mypy"), "there is no mypy (apt-get install mypy)")
class Types(unittest.TestCase):
    def setUp(self):
        room = tempfile.TemporaryDirectory()
        self.addCleanup(room.cleanup)
        self.room = room.name

    def mypy(self, *words):
        """Returns the status of mypy, and its output."""
        done = subprocess.run(
            ["mypy", "--strict", "--python-version", "3.9", "--cache-dir", os.path.join(self.room, "cache"), *words],
            cwd=self.room,
            env={**os.environ, "MYPYPATH": HERE},
            stdout=subprocess.PIPE,
            stderr=subprocess.STDOUT,
            text=True,
            timeout=10 * PATIENCE,
            check=False,
        )
        return done.returncode, done.stdout

    def program(self, text):
        path = os.path.join(self.room, "program.py")
        with open(path, "w", encoding="utf-8") as file:
            file.write(text)
        return path

    def test_the_packages_and_a_program_have_complete_types(self):
        words = [os.path.join(HERE, name) for name in PACKAGES]
        status, told = self.mypy(*words, self.program(USER))
        self.assertRegex(told, r"\ASuccess: no issues found in \d\d source files\n\Z")
        self.assertEqual(status, 0)

    def test_wrong_uses_are_refused(self):
        lines = ["import jentry", "", "", "def use(cache: jentry.Cache) -> None:", *(f"    {it}" for it in WRONG)]
        status, told = self.mypy(self.program("\n".join(lines) + "\n"))
        self.assertEqual(status, 1)
        found = {int(line.split(":")[1]) for line in told.splitlines() if ": error: " in line}
        self.assertEqual(found, set(range(5, 5 + len(WRONG))), told)


if __name__ == "__main__":
    unittest.main()
