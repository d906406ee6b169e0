"""The lines that name what failed, directly before the last line of a run's output: `failed: PART: NAME: WHY`.

The log of a merge gate is often shown from its end only, and these lines are there. A run that starts other runs repeats theirs.
`failed.py PART [WHERE]` prints those of the output of JUnit's console launcher, which it reads.
"""
import re
import sys

MOST = 60
"""The maximum number of lines, and MOST_LETTERS that of the characters of a line."""
MOST_LETTERS = 400
LINE = "failed: "
JUNIT = re.compile(
    r"^  (\S.*)\n    (?:Method|Class)Source \[className = '([^']*)'(?:, methodName = '([^']*)')?.*\]\n    => (.*)$",
    re.MULTILINE,
)
"""A failure in the output of JUnit's console launcher: the path of its names, its class, its method and the exception."""


def line_of(part, name, why=""):
    """Returns the line of a failed test. A reason of several lines is on one."""
    words = " ".join(f"{name}: {why}".split()) if why else name
    return f"{LINE}{part}: {words}"[:MOST_LETTERS]


def why_of(traceback):
    """Returns the first line of the exception at the end of a traceback."""
    lines = traceback.splitlines()
    found = [
        line
        for before, line in zip(["  ", *lines], lines)
        if before.startswith("  ") and re.match(r"[A-Za-z_][\w.]*(:|$)", line)
    ]
    return found[-1] if found else ""


def lines_of(part, told):
    """Returns the lines of the tests that failed, by the result of unittest. A test that failed in several of its rows has a line for each row."""
    rows = [(test.id(), why_of(text)) for test, text in [*told.errors, *told.failures]]
    rows += [(test.id(), "it was expected to fail") for test in told.unexpectedSuccesses]
    return limited(part, [line_of(part, name, why) for name, why in sorted(rows)])


def limited(part, lines):
    """Returns the lines without repetitions, and at most MOST of them."""
    lines = list(dict.fromkeys(lines))
    return lines if len(lines) <= MOST else [*lines[:MOST], line_of(part, f"{len(lines) - MOST} more")]


def named(output):
    """Returns the lines of this kind that are directly before the last line of an output."""
    found = []
    for line in reversed(output.rstrip().splitlines()[:-1]):
        if not line.startswith(LINE):
            break
        found.insert(0, line)
    return found


def renamed(part, lines):
    """Returns these lines with the name of another part: the same tests may be run in several ways."""
    return [f"{LINE}{part}: {line[len(LINE):].partition(': ')[2]}"[:MOST_LETTERS] for line in lines]


def junit_lines(part, where, output):
    """Returns the lines of the tests that failed, by the output of JUnit's console launcher. `where` says on what they ran."""
    found = JUNIT.findall(output)
    lines = [
        line_of(part, ".".join(filter(None, (of, method))) + junit_row(path, method) + where, why)
        for path, of, method, why in found
    ]
    last = (output.rstrip().splitlines() or [""])[-1]
    return limited(part, lines or [line_of(part, "the tests ended without a result" + where, last)])


def junit_row(path, method):
    """Returns the row of a test that runs once for each of several rows."""
    row = path.rpartition(f":{method}(")[2].partition("):")[2] if method else ""
    return f" [{row}]" if row else ""


if __name__ == "__main__":
    print("\n".join(junit_lines(sys.argv[1], "".join(f" on {it}" for it in sys.argv[2:]), sys.stdin.read())))
