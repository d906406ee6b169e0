"""What failed is named directly before the last line of a run: by the runners of tests, by clients/test, and of JUnit's output."""
import contextlib
import importlib.machinery
import importlib.util
import io
import os
import subprocess
import sys
import tempfile
import unittest
import unittest.mock

from shared import TOP

sys.path.append(f"{TOP}/tests/program")
import failed

TESTS = '''import unittest


class Some(unittest.TestCase):
    def test_good(self):
        pass

    def test_bad(self):
        self.assertEqual([1, 2], [1, 3])

    def test_rows(self):
        for row in (1, 2):
            with self.subTest(row=row):
                raise ValueError(f"the row {row}\\nis wrong")
'''
NAMED = [
    "odd_test.Some.test_bad: AssertionError: Lists differ: [1, 2] != [1, 3]",
    "odd_test.Some.test_rows (row=1): ValueError: the row 1",
    "odd_test.Some.test_rows (row=2): ValueError: the row 2",
]
JUNIT = """Thanks for using JUnit!
+-- JUnit Jupiter [OK]

Failures (3):
  JUnit Jupiter:NearTest:itIsBounded()
    MethodSource [className = 'jentry.jcache.redis.NearTest', methodName = 'itIsBounded', methodParameterTypes = '']
    => org.opentest4j.AssertionFailedError: too many ==> expected: <0> but was: <1>
       jentry.jcache.redis.NearTest.itIsBounded(NearTest.java:66)
       [...]
  JUnit Jupiter:GetPutTest:put(Subject):child process
    MethodSource [className = 'jentry.jcache.jsr107.GetPutTest', methodName = 'put', methodParameterTypes = 'jentry.jcache.jsr107.Subject']
    => java.lang.IllegalStateException: first
second
       [...]
  JUnit Jupiter:CommandsTest
    ClassSource [className = 'jentry.jcache.redis.CommandsTest', filePosition = null]
    => java.io.IOException: no port
       [...]

Test run finished after 184358 ms
[        54 tests successful      ]
[         3 tests failed          ]

"""


def script(path):
    """Loads a command as a module."""
    loader = importlib.machinery.SourceFileLoader(os.path.basename(path), f"{TOP}/{path}")
    made = importlib.util.module_from_spec(importlib.util.spec_from_loader(loader.name, loader))
    loader.exec_module(made)
    return made


class Failed(unittest.TestCase):
    def setUp(self):
        made = tempfile.TemporaryDirectory()
        self.addCleanup(made.cleanup)
        self.folder = f"{made.name}/some"
        os.mkdir(self.folder)
        with open(f"{self.folder}/odd_test.py", "w", encoding="utf-8") as it:
            it.write(TESTS)

    def last_lines(self, words):
        """Returns the last lines of a command in the folder of the tests."""
        ran = subprocess.run(
            [sys.executable, "-B", *words],
            env={**os.environ, "PYTHONPATH": self.folder},
            stdout=subprocess.PIPE,
            stderr=subprocess.STDOUT,
            text=True,
            check=False,
        )
        self.assertEqual(ran.returncode, 1, ran.stdout)
        return ran.stdout.splitlines()[-4:]

    def test_of_the_clients(self):
        found = self.last_lines([f"{TOP}/clients/tests/run.py", "clients/odd", "odd_test"])
        self.assertEqual(found, [*(f"failed: clients/odd: {it}" for it in NAMED), "clients/odd: 1 passed, 2 failed"])

    def test_of_the_programs_the_commands_and_the_pages(self):
        """tests/first and tests/pages use the same functions."""
        code = f"import sys; sys.path.insert(0, {TOP!r} + '/tests/first'); from failed_test import script\n"
        code += f"sys.exit(script('tests/program/test').run_modules({self.folder!r}, []))"
        found = self.last_lines(["-c", f"import sys; sys.path.insert(0, {TOP!r} + '/bin')\n{code}"])
        self.assertEqual(found, [*(f"failed: tests/some: {it}" for it in NAMED), "1 passed, 2 failed"])

    def told(self, text, status, limit=60):
        """Returns the lines of clients/test about a client whose tests print this and end so."""
        clients = script("clients/test")
        clients.run = lambda words, limit, **variables: (text, status)
        counted = clients.Sum()
        with contextlib.redirect_stdout(io.StringIO()), unittest.mock.patch.dict(os.environ, JENTRY_PATIENCE="60"):
            clients.run_client(counted, "clients/odd (again)", ["odd"], limit)
        return counted.lines, counted.failed

    def test_of_the_parts_of_the_clients(self):
        text = (
            "failed: clients/odd: an.old.one\nmore\nfailed: clients/odd: a.B.c: why\nclients/odd: 3 passed, 1 failed\n"
        )
        self.assertEqual(self.told(text, 1), (["failed: clients/odd (again): a.B.c: why"], 1))
        self.assertEqual(self.told("clients/odd: 3 passed\n", 0), ([], 0))

    def test_of_a_part_that_names_nothing(self):
        self.assertEqual(
            self.told("at a test\n", None), (["failed: clients/odd (again): stopped after 60 s: at a test"], 1)
        )
        self.assertEqual(self.told("no port\n", 3), (["failed: clients/odd (again): status 3: no port"], 1))

    def test_of_junit(self):
        self.assertEqual(
            failed.junit_lines("clients/java", " on jentry:default", JUNIT),
            [
                "failed: clients/java: jentry.jcache.redis.NearTest.itIsBounded on jentry:default: org.opentest4j.AssertionFailedError: "
                "too many ==> expected: <0> but was: <1>",
                "failed: clients/java: jentry.jcache.jsr107.GetPutTest.put [child process] on jentry:default: "
                "java.lang.IllegalStateException: first",
                "failed: clients/java: jentry.jcache.redis.CommandsTest on jentry:default: java.io.IOException: no port",
            ],
        )
        self.assertEqual(
            failed.junit_lines("clients/java", "", "java: out of memory\n"),
            ["failed: clients/java: the tests ended without a result: java: out of memory"],
        )

    def test_there_is_a_limit(self):
        lines = [failed.line_of("a", f"test_{i}", "x" * 1_000) for i in range(100)]
        found = failed.limited("a", lines + lines)
        self.assertEqual((len(found), found[-1]), (failed.MOST + 1, "failed: a: 40 more"))
        self.assertLessEqual(max(map(len, found)), failed.MOST_LETTERS)
