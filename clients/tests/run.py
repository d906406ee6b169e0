#!/usr/bin/env python3
"""run: runs test modules and prints their counts in one line. `run.py NAME MODULE..`; the last line is `NAME: N passed`, then `, M failed`
if tests failed, and `, K skipped: WHY` if tests were skipped. Before it is a line `failed: NAME: TEST: WHY` for each failed test."""
import os
import sys
import unittest

sys.path.append(os.path.join(os.path.dirname(os.path.abspath(__file__)), "../../tests/program"))
from failed import lines_of


class Counting(unittest.TextTestResult):
    """Counts the tests that passed. A test that failed in several of its parts has failed once."""

    def __init__(self, *words):
        super().__init__(*words)
        self.passed = 0

    def addSuccess(self, test):
        super().addSuccess(test)
        self.passed += 1


def main(name, modules):
    suite = unittest.defaultTestLoader.loadTestsFromNames(modules)
    told = unittest.TextTestRunner(stream=sys.stdout, resultclass=Counting).run(suite)
    failed = told.testsRun - told.passed - len(told.skipped) - len(told.expectedFailures)
    failed = max(failed, len({str(test) for test, _ in told.errors + told.failures}) > 0)
    line = f"{name}: {told.passed} passed"
    if failed:
        line += f", {int(failed)} failed"
    if told.skipped:
        line += f", {len(told.skipped)} skipped: " + "; ".join(sorted({why for _, why in told.skipped}))
    print("\n".join([*lines_of(name, told), line]))
    return 1 if failed or not told.wasSuccessful() else 0


if __name__ == "__main__":
    sys.exit(main(sys.argv[1], sys.argv[2:]))
