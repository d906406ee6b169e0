"""The speed of the built program, by which tests choose how much heavy work they give it, and how long they wait.

A trial build takes about a thousand times as long as the proved program. No fixed number of seconds or of instructions suits both."""
import functools
import os
import subprocess
import tempfile
import time

from row_classes import line_of

INSTRUCTIONS = 2**17
"""The instructions of the run that is measured."""
PATIENCE, MOST_PATIENCE = 60, 600
"""The seconds that a test waits for a program that takes no time itself, and those that it waits at most."""
WAITED_FOR = 20_000_000
"""The instructions of the most work that a test waits for, on one thread."""


def seconds_of(words):
    """Returns the seconds that a command takes, the least of three tries. Where one takes more than a second, it is the only one."""
    found = []
    while len(found) < 3 and max(found, default=0) < 1:
        began = time.monotonic()
        subprocess.run(words, stdin=subprocess.DEVNULL, stdout=subprocess.DEVNULL, check=True)
        found.append(time.monotonic() - began)
    return min(found)


@functools.lru_cache(maxsize=None)
def seconds_an_instruction(program):
    """Returns what an instruction of a run takes: the seconds of a long run without those of a verdict, by the run's instructions."""
    with tempfile.TemporaryDirectory() as folder:
        path = os.path.join(folder, "Line.class")
        with open(path, "wb") as it:
            it.write(line_of(16, 2))
        run, check = seconds_of([program, "run", path, "1", "1"]), seconds_of([program, "check", path])
    return max(run - check, 0) / INSTRUCTIONS


def patience(program):
    """Returns the seconds that tests wait for this program, or for none: JENTRY_PATIENCE, or by the program's speed."""
    given = os.environ.get("JENTRY_PATIENCE")
    if given or not program:
        return int(given or PATIENCE)
    return min(PATIENCE + int(WAITED_FOR * seconds_an_instruction(program)), MOST_PATIENCE)
