"""The measure of a build's speed, on programs that take a known time."""
import os
import sys
import tempfile
import unittest
from unittest import mock

import pace
from running import told

CLIENTS = os.path.join(os.path.dirname(os.path.abspath(__file__)), "../../clients/tests")


class Pace(unittest.TestCase):
    def program(self, seconds):
        """Makes a program whose runs take this long, and whose verdicts take no time."""
        folder = tempfile.TemporaryDirectory()
        self.addCleanup(folder.cleanup)
        path = os.path.join(folder.name, "program")
        with open(path, "w", encoding="utf-8") as it:
            it.write(f'#!/bin/sh\n[ "$1" = check ] || sleep {seconds}\n')
        os.chmod(path, 0o755)
        return path

    def setUp(self):
        given = mock.patch.dict(os.environ)
        given.start()
        self.addCleanup(given.stop)
        os.environ.pop("JENTRY_PATIENCE", None)

    def test_a_slow_build_is_given_more_time(self):
        fast, slow, endless = (pace.patience(self.program(it)) for it in (0, 1.5, 5))
        self.assertLess(fast, 100)
        self.assertGreater(slow, 60 + 150)
        self.assertEqual(endless, 600)
        self.assertEqual(pace.patience(None), 60)
        os.environ["JENTRY_PATIENCE"] = "7"
        self.assertEqual(pace.patience(self.program(5)), 7)

    def test_heavy_classes_take_what_they_say(self):
        """The instructions of each level, as the program bounds them."""
        with mock.patch.object(sys, "path", [*sys.path, CLIENTS]):
            from class_files import heavy, heavy_steps
        for levels in range(1, 6):
            verdict = told(os.environ["JENTRY_PROGRAM"], ["check", "C"], heavy(levels)).output.decode()
            self.assertIn(f"steps={heavy_steps(levels)} words=0 ", verdict)
        self.assertGreater(heavy_steps(5), 240_000)
