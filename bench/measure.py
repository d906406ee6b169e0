#!/usr/bin/env python3
"""Measures the built programs: runs compared with HotSpot, verdicts, calls on a cache, rounds by workers.

usage: measure.py PROGRAM [--tries N] [--out FOLDER] [WORD..]

PROGRAM is the built `bench`. WORDs are runs, verdicts, calls and rounds; by default all four are measured. The figures of a WORD are measured in
turn, N times each (by default 5). For each WORD a table in Markdown is printed, with the median of the tries and, in brackets, the minimum and the
maximum. The same figures go into FOLDER (bench/out) as NAME.tsv, from which bench/plot.py makes plots. machine.tsv there describes the machine. 5
tries take some ten minutes. HotSpot is measured if java and javac are installed.
"""
import argparse
import datetime
import os
import re
import shutil
import statistics
import subprocess
import sys
import tempfile

TOP = os.path.dirname(os.path.dirname(os.path.abspath(__file__)))
sys.path.insert(0, os.path.join(TOP, "tests/program"))
import row_classes

QUIET, EXCLUDE = "-XX:CompileCommand=quiet", "-XX:CompileCommand=exclude,"
HEAD = ("series", "x", "median", "least", "greatest")

# The class files, and the key, the value and the arguments of their runs.
PROCESSORS = [
    ("examples/Plus.class", ["7", "41"]),
    ("examples/Add.class", ["7", "41", "1"]),
    ("examples/BoundedIncrement.class", ["7", "2", "3"]),
    ("examples/TokenBucket.class", ["7", "256070", "1000", "71"]),
    ("examples/Score.class", ["7", "none", "40", "5", "6"]),
    ("examples/Checksum.class", ["7", "81985529216486895"]),
    ("bench/Straight.class", ["7", "41"]),
]
SEATS = ("1", "2", "4")
JOBS = ("1", "64", "512", "4096")
SIZES = (1_000, 4_000, 16_000, 64_000)


def printed(words):
    done = subprocess.run(words, cwd=TOP, stdout=subprocess.PIPE, stderr=subprocess.STDOUT, text=True)
    if done.returncode != 0:
        sys.exit(f"{' '.join(words)}: {done.stdout}")
    return done.stdout


def number(pattern, text):
    return float(re.search(pattern, text)[1])


def name_of(file):
    return os.path.basename(file)[: -len(".class")]


class Measure:
    """Figures by series and x, all of them measured in turn and several times."""

    def __init__(self, tries):
        self.tries, self.asked = tries, []

    def ask(self, series, x, figure):
        """Adds a figure for this series at this x. `figure` is the function that measures it."""
        self.asked.append((series, x, figure))

    def rows(self):
        """Measures all figures. Returns the median, the minimum and the maximum of the tries, in the order in which the figures were added."""
        seen = {(series, x): [] for series, x, _ in self.asked}
        for _ in range(self.tries):
            for series, x, figure in self.asked:
                seen[series, x].append(figure())
        return [(series, x, statistics.median(it), min(it), max(it)) for (series, x), it in seen.items()]


def compile_for_java(folder):
    """Compiles the harness for HotSpot into a folder. Returns whether that succeeded."""
    if not (shutil.which("java") and shutil.which("javac")):
        return False
    words = ["javac", "-nowarn", "-Xlint:-options", "-sourcepath", "examples/api", "-d", folder, "bench/HotSpot.java"]
    return subprocess.run(words, cwd=TOP, stderr=subprocess.DEVNULL).returncode == 0


def on_hotspot(folder, file, words, excluded):
    """Returns the nanoseconds of a call on HotSpot, with the class excluded from compilation or not."""
    options = [QUIET, f"{EXCLUDE}*.process", f"{EXCLUDE}{name_of(file)}.*"] if excluded else []
    count = "2000" if excluded else "50000"
    return number(r"at least ([\d.]+) ns", printed(["java", *options, "-cp", folder, "HotSpot", file, count, *words]))


def measure_runs(program, folder, measure):
    """Nanoseconds an instruction."""
    has_java = compile_for_java(folder)
    for file, words in PROCESSORS:
        steps = number(r"(\d+) steps", printed([program, "run", file, "2", *words]))
        x = f"{name_of(file)} ({steps:.0f})"

        def ours(file=file, words=words, steps=steps):
            return number(r"at least ([\d.]+) ns", printed([program, "run", file, "2000", *words])) / steps

        measure.ask("jentry", x, ours)
        for series, excluded in (("HotSpot, interpreter", True), ("HotSpot, JIT", False)) if has_java else ():
            measure.ask(
                series,
                x,
                lambda file=file, words=words, steps=steps, it=excluded: on_hotspot(folder, file, words, it) / steps,
            )


def straight(size):
    """Returns a class of about `size` bytes: a sequence of additions."""
    code = b"\x04" + b"\x04\x60" * ((size - 700) // 2) + b"\x85\xb8\0\x29\xb0"
    return row_classes.class_of(row_classes.process(2, 3, code))


def measure_verdicts(program, folder, measure):
    """Microseconds a verdict, by the bytes of the class."""
    files = [("examples", os.path.join(TOP, file)) for file, _ in PROCESSORS]
    for size in SIZES:
        path = os.path.join(folder, f"Straight{size}.class")
        with open(path, "wb") as it:
            it.write(straight(size))
        files.append(("additions in a row", path))
    for series, path in files:
        count = str(max(5, 2_000_000 // os.path.getsize(path)))
        measure.ask(
            series,
            str(os.path.getsize(path)),
            lambda path=path, count=count: number(r"at least ([\d.]+) us", printed([program, "verify", path, count])),
        )


def measure_calls(program, _, measure):
    """Nanoseconds a call on a cache, by seats on threads of their own."""
    for seats in SEATS:
        for keys, name in (("1024", "1,024 keys"), ("100000", "100,000 keys")):
            for call in ("invoke", "put"):
                measure.ask(
                    f"{call}, {name}",
                    seats,
                    lambda seats=seats, keys=keys, call=call: number(
                        rf"{call} .*?at least ([\d.]+) ns",
                        printed([program, "calls", "examples/Plus.class", keys, seats]),
                    ),
                )


def measure_rounds(program, _, measure):
    """Microseconds a round, by workers."""
    for file in ("examples/Plus.class", "bench/Straight.class"):
        for jobs in JOBS:
            for seats in SEATS:
                measure.ask(
                    f"{name_of(file)}, {int(jobs):,} calls",
                    seats,
                    lambda file=file, jobs=jobs, seats=seats: number(
                        r"round ([\d.]+) us", printed([program, "rounds", file, jobs, seats])
                    ),
                )


MEASURES = {"runs": measure_runs, "verdicts": measure_verdicts, "calls": measure_calls, "rounds": measure_rounds}


def cell(row):
    _, _, median, least, greatest = row
    digits = 2 if median < 10 else 1 if median < 100 else 0
    return f"{median:,.{digits}f} ({least:,.{digits}f} to {greatest:,.{digits}f})"


def table(name, unit, rows):
    """Prints a table with a row for each series."""
    xs = list(dict.fromkeys(x for _, x, *_ in rows))
    print(f"\n{name}: {unit}\n\n| | {' | '.join(xs)} |\n|{'---|' * (len(xs) + 1)}")
    for series in dict.fromkeys(it[0] for it in rows):
        found = {it[1]: cell(it) for it in rows if it[0] == series}
        print(f"| {series} | {' | '.join(found.get(x, '') for x in xs)} |")
    sys.stdout.flush()


def write(path, rows):
    with open(path, "w", encoding="utf-8") as it:
        it.writelines("\t".join(map(str, row)) + "\n" for row in rows)


def machine(tries):
    """Returns the machine, the commit and the date of a measurement."""
    with open("/proc/cpuinfo", encoding="utf-8") as it:
        names = re.findall(r"model name\s*: (.*)", it.read())
    commit = subprocess.run(
        ["git", "describe", "--always", "--dirty"], cwd=TOP, stdout=subprocess.PIPE, text=True
    ).stdout.strip()
    return [
        ("processors", f"{len(names)} x {names[0] if names else 'unknown'}"),
        ("system", " ".join(os.uname()[:3:2])),
        ("commit", commit or "unknown"),
        ("date", datetime.date.today().isoformat()),
        ("tries", tries),
        ("load", f"{os.getloadavg()[0]:.1f}"),
    ]


def main():
    parser = argparse.ArgumentParser(description=__doc__.split("\n")[0])
    parser.add_argument("program", help="the built bench")
    parser.add_argument("--tries", type=int, default=5, help="how often each figure is measured")
    parser.add_argument("--out", default=os.path.join(TOP, "bench/out"), help="the folder for the figures")
    parser.add_argument("measure", nargs="*", help=f"{', '.join(MEASURES)}; all where none is named")
    options = parser.parse_intermixed_args()
    if wrong := [it for it in options.measure if it not in MEASURES]:
        parser.error(f"no measure is called {wrong[0]}")
    program = os.path.abspath(options.program)
    os.makedirs(options.out, exist_ok=True)
    write(os.path.join(options.out, "machine.tsv"), machine(options.tries))
    for name in options.measure or MEASURES:
        with tempfile.TemporaryDirectory() as folder:
            measure = Measure(options.tries)
            MEASURES[name](program, folder, measure)
            rows = measure.rows()
        write(os.path.join(options.out, f"{name}.tsv"), [HEAD, *rows])
        table(name, MEASURES[name].__doc__, rows)
    print(f"\nThe figures are in {options.out}; bench/plot.py makes plots of them.")


if __name__ == "__main__":
    main()
