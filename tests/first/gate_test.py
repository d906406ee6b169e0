"""bin/test: its counts, what it prints about crates that weren't proved, and what it installs."""
import contextlib
import io
import os
import tempfile
import unittest
from unittest import mock

from shared import load_script

LOG = """rt: crates/a/src/odd.rt is read by no check
rt: low is kept: an earlier run proved the same files
== low
low says something
rt: low proved
== middle
a long report
error: no proof
rt: middle NOT PROVED
== top
fine
rt: top proved
3 passed, 1 failed
"""


class Gate(unittest.TestCase):
    def setUp(self):
        self.test = load_script("test")

    def test_sums_are_of_last_lines_and_no_failure_is_lost(self):
        counted = self.test.Sum()
        for status, output in ((0, "1 passed, 1 failed\nmore\n12 passed, 0 failed\n"), (0, "3 passed, 0 failed\n")):
            counted.add(status, output, "a part")
        self.assertEqual((counted.passed, counted.failed, counted.status), (15, 0, 0))
        counted.add(2, "killed without a last line\n", "a part")
        counted.add(1, "5 passed, 4 failed\n", "a part")
        counted.add(7, "5 passed, 0 failed\n", "a part")
        with contextlib.redirect_stdout(io.StringIO()) as printed:
            self.assertEqual(counted.report(), 2)
        self.assertEqual(printed.getvalue().splitlines()[-1], "25 passed, 6 failed")

    def test_what_failed_is_named_before_the_last_line(self):
        counted = self.test.Sum()
        counted.add(0, "failed: a/part: an.old.test: of a log\n3 passed, 0 failed\n", "a/part")
        counted.add(1, "failed: b: shown\nmore\nfailed: b: one: why\nfailed: b: two\n5 passed, 2 failed\n", "b/test")
        counted.add(1, "newcomer: the first command fails\n0 passed, 1 failed\n", "tests/first/newcomer")
        counted.add(3, "no last line\n", "bin/library")
        with contextlib.redirect_stdout(io.StringIO()) as printed:
            self.assertEqual(counted.report(), 1)
        self.assertEqual(
            printed.getvalue(),
            "failed: b: one: why\nfailed: b: two\nfailed: tests/first/newcomer: status 1: newcomer: the first command fails\n"
            "failed: bin/library: status 3: no last line\n8 passed, 4 failed\n",
        )

    def test_crates_that_are_not_proved_are_named(self):
        counted = self.test.Sum()
        with mock.patch.object(self.test, "run", lambda words, **_: (1, LOG)), mock.patch.object(
            self.test, "machine", lambda _: "a machine"
        ), contextlib.redirect_stdout(io.StringIO()):
            self.test.prove(counted)
        self.assertEqual(counted.lines, ["failed: rt ci: middle NOT PROVED"])

    def test_a_failed_sum_has_a_status(self):
        counted = self.test.Sum()
        counted.add(0, "5 passed, 1 failed\n", "a part")
        with contextlib.redirect_stdout(io.StringIO()):
            self.assertEqual(counted.report(), 1)

    def test_what_an_unproved_crate_said_is_shown_again(self):
        self.assertEqual(
            self.test.unproved(LOG),
            "rt: crates/a/src/odd.rt is read by no check\n== middle\na long report\nerror: no proof\nrt: middle NOT PROVED",
        )

    def test_each_package_has_what_shows_it_and_what_needs_it(self):
        rows = self.test.packages()
        self.assertGreater(len(rows), 3)
        self.assertEqual({len(row) for row in rows}, {3})
        self.assertTrue(all(all(row) for row in rows))

    def test_a_command_or_a_file_shows_a_package(self):
        with tempfile.NamedTemporaryFile() as there:
            self.assertTrue(self.test.is_there(f"no-such-command {there.name}"))
        self.assertTrue(self.test.is_there("sh /no/such/file"))
        self.assertFalse(self.test.is_there("no-such-command /no/such/file"))

    def test_what_may_not_be_installed_is_told_with_the_command(self):
        """The user isn't root: nothing is installed, and nothing fails."""
        rows = [["no-such-package", "/no/such/file", "clients/java"], ["there", "sh", "all"]]
        with mock.patch.object(self.test, "packages", lambda: rows), mock.patch.object(
            os, "geteuid", lambda: 1000
        ), mock.patch.object(self.test, "apt_get") as called, contextlib.redirect_stdout(io.StringIO()) as printed:
            self.test.install_missing()
        called.assert_not_called()
        self.assertEqual(
            printed.getvalue(),
            "bin/test: no-such-package is missing, and this user may not install it: of clients/java what needs it is skipped "
            "(apt-get install no-such-package)\n",
        )

    @unittest.skipUnless(os.geteuid() == 0 and os.path.exists("/usr/bin/apt-get"), "it needs root and apt-get")
    def test_a_package_that_cannot_be_installed_fails_nothing(self):
        """A real apt-get is called for a package that Debian doesn't have."""
        with mock.patch.object(
            self.test, "packages", lambda: [["no-such-package-of-debian", "/no/such/file", "clients/java"]]
        ), contextlib.redirect_stdout(io.StringIO()) as printed:
            self.test.install_missing()
        self.assertIn("no-such-package-of-debian is missing, and apt-get could not install it", printed.getvalue())
