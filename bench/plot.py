#!/usr/bin/env python3
"""Makes plots of the figures that bench/measure.py wrote, with gnuplot (apt-get install gnuplot-nox).

usage: plot.py [--out FOLDER] FIGURES.tsv..

FIGURES.tsv are files named runs, verdicts, calls, rounds or clients, with the columns series, x, median, least and greatest. Each makes a plot
FOLDER/NAME.svg, by default in docs/plots. The plot contains the checksum of its figures, which a test compares.
"""
import argparse
import hashlib
import os
import re
import shutil
import subprocess
import sys

TOP = os.path.dirname(os.path.dirname(os.path.abspath(__file__)))
COLOURS = ("#0072b2", "#d55e00", "#009e73", "#cc79a7", "#e69f00", "#56b4e9", "#000000", "#999999")

# The title of each plot, the labels of its axes, and gnuplot's settings.
PLOTS = {
    "runs": ("A run beside HotSpot", "processor (instructions of a run)", "ns an instruction", "set logscale y"),
    "verdicts": ("A verdict by the size of the class", "bytes of the class file", "us", "set logscale xy"),
    "calls": (
        "Calls on a shared cache",
        "threads",
        "ns a call",
        "set logscale y; set logscale x 2; set xtics (1, 2, 4); set xrange [0.9:4.4]",
    ),
    "rounds": (
        "Rounds by workers",
        "workers",
        "us a round",
        "set logscale y; set logscale x 2; set xtics (1, 2, 4); set xrange [0.9:4.4]",
    ),
    "clients": (
        "Calls a second from one JVM",
        "threads",
        "calls a second",
        "set logscale xy; set xtics (1, 8, 64); set xrange [0.8:80]",
    ),
}


def read(path):
    """Returns the rows of a file of figures: series, x, median, least, greatest."""
    with open(path, encoding="utf-8") as it:
        lines = [line.rstrip("\n").split("\t") for line in it if line.strip()]
    if lines[0] != ["series", "x", "median", "least", "greatest"]:
        sys.exit(f"plot: {path} has other columns")
    return [(series, x, *map(float, rest)) for series, x, *rest in lines[1:]]


def quoted(text):
    return "'" + text.replace("'", "''") + "'"


def block(name, rows):
    return (
        f"${name} << EOD\n"
        + "\n".join("\t".join(quoted(it) if isinstance(it, str) else str(it) for it in row) for row in rows)
        + "\nEOD\n"
    )


def bars(rows):
    """Returns gnuplot's commands for bars side by side at each x, with their spread."""
    xs, names = list(dict.fromkeys(it[1] for it in rows)), list(dict.fromkeys(it[0] for it in rows))
    width = 0.8 / len(names)
    text, parts = "", []
    for at, name in enumerate(names):
        figures = [
            (xs.index(x) + (at - (len(names) - 1) / 2) * width, *rest) for series, x, *rest in rows if series == name
        ]
        text += block(f"d{at}", figures)
        parts.append(
            f"$d{at} using 1:2:({width * 0.9}) with boxes fs solid 0.8 noborder lc rgb '{COLOURS[at]}' title {quoted(name)}"
        )
        parts.append(f"$d{at} using 1:2:3:4 with yerrorbars pt 7 ps 0.2 lc rgb '#444444' notitle")
    ticks = ", ".join(f"{quoted(x)} {at}" for at, x in enumerate(xs))
    return (
        text
        + f"set xtics ({ticks}) rotate by 20 right\nset xrange [-0.6:{len(xs) - 0.4}]\nplot "
        + ", \\\n  ".join(parts)
    )


def lines(rows):
    """Returns gnuplot's commands for a line for each series, with the spread of each point."""
    text, parts = "", []
    for at, name in enumerate(dict.fromkeys(it[0] for it in rows)):
        text += block(f"d{at}", [(float(x), *rest) for series, x, *rest in rows if series == name])
        colour = COLOURS[at % len(COLOURS)]
        parts.append(
            f"$d{at} using 1:2:3:4 with yerrorlines pt {at % 8 + 4} ps 0.7 lc rgb '{colour}' title {quoted(name)}"
        )
    return text + "plot " + ", \\\n  ".join(parts)


def plot(path, folder):
    """Makes the plot of a file of figures. Returns its path."""
    name = os.path.basename(path).rpartition(".")[0]
    if name not in PLOTS:
        sys.exit(f"plot: no plot is called {name}")
    title, x, y, settings = PLOTS[name]
    rows = read(path)
    made = os.path.join(folder, f"{name}.svg")
    script = "\n".join(
        [
            "set terminal svg size 760,440 dynamic background '#ffffff' font 'sans-serif,12'",
            f"set output {quoted(made)}",
            f"set title {quoted(title)}\nset xlabel {quoted(x)}\nset ylabel {quoted(y)}",
            "set key outside right top\nset grid ytics lc rgb '#dddddd'\nset format y '%.10g'",
            settings,
            bars(rows) if name == "runs" else lines(rows),
            "",
        ]
    )
    subprocess.run(["gnuplot"], input=script, text=True, check=True)
    with open(path, "rb") as it:
        of = hashlib.sha256(it.read()).hexdigest()
    with open(made, encoding="utf-8") as it:
        text = it.read()
    with open(made, "w", encoding="utf-8") as it:
        it.write(re.sub(r"<desc>.*?</desc>", f"<desc>{title}. Figures: sha256 {of}</desc>", text, count=1, flags=re.S))
    return made


def main():
    parser = argparse.ArgumentParser(description=__doc__.split("\n")[0])
    parser.add_argument("--out", default=os.path.join(TOP, "docs/plots"), help="the folder for the plots")
    parser.add_argument("figures", nargs="+", help="files of figures")
    options = parser.parse_args()
    if not shutil.which("gnuplot"):
        sys.exit("plot: there is no gnuplot (apt-get install gnuplot-nox)")
    os.makedirs(options.out, exist_ok=True)
    for path in options.figures:
        print(plot(path, options.out))


if __name__ == "__main__":
    main()
