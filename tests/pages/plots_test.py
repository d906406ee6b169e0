"""The plots in docs/plots show the figures next to them, bench/plot.py makes plots, and bench/measure.py makes figures for them."""
import glob
import hashlib
import os
import re
import shutil
import subprocess
import sys
import tempfile
import unittest
from xml.etree import ElementTree

from page import TOP, text_of

sys.path.insert(0, os.path.join(TOP, "bench"))
import measure

FIGURES = "series\tx\tmedian\tleast\tgreatest\nfirst\t1\t2.5\t2\t3\nfirst\t4\t1.5\t1\t2\nsecond\t1\t7\t6\t8\nsecond\t4\t5\t4\t6\n"
BENCH = os.environ.get("BENCH_PROGRAM", "")


def texts_of(svg):
    return ["".join(it.itertext()).strip() for it in ElementTree.parse(svg).iter() if it.tag.endswith("}text")]


class Plots(unittest.TestCase):
    def test_plots_are_of_their_figures_and_shown(self):
        plots = glob.glob(os.path.join(TOP, "docs/plots/*.svg"))
        self.assertTrue(plots)
        for plot in plots:
            figures = plot.replace(".svg", ".tsv")
            with self.subTest(plot=os.path.basename(plot)), open(figures, "rb") as it:
                self.assertIn(hashlib.sha256(it.read()).hexdigest(), text_of(os.path.relpath(plot, TOP)))
                self.assertIn(f"plots/{os.path.basename(plot)}", text_of("docs/PERFORMANCE.md"))

    @unittest.skipUnless(shutil.which("gnuplot"), "there is no gnuplot (apt-get install gnuplot-nox)")
    def test_a_plot_has_its_series(self):
        with tempfile.TemporaryDirectory() as folder:
            for name in ("runs", "verdicts", "calls", "rounds", "clients"):
                path = os.path.join(folder, f"{name}.tsv")
                with open(path, "w", encoding="utf-8") as it:
                    it.write(FIGURES)
                subprocess.run(
                    [sys.executable, os.path.join(TOP, "bench/plot.py"), "--out", folder, path],
                    check=True,
                    stdout=subprocess.DEVNULL,
                )
                self.assertLessEqual({"first", "second"}, set(texts_of(path.replace(".tsv", ".svg"))), name)

    def test_tables_of_the_page_are_the_figures(self):
        """Each figure in the files next to the plots is in a cell of the page."""
        page = text_of("docs/PERFORMANCE.md")
        for path in glob.glob(os.path.join(TOP, "docs/plots/*.tsv")):
            with open(path, encoding="utf-8") as it:
                rows = [line.split("\t") for line in it.read().strip().split("\n")[1:]]
            self.assertTrue(rows)
            for series, x, *figures in rows:
                with self.subTest(figures=os.path.basename(path), series=series, x=x):
                    self.assertIn(f"| {measure.cell((series, x, *map(float, figures)))} |", page)

    @unittest.skipUnless(os.access(BENCH, os.X_OK), "BENCH_PROGRAM names no bench (bin/bench makes one)")
    def test_measures_are_written(self):
        with tempfile.TemporaryDirectory() as folder:
            words = [
                sys.executable,
                os.path.join(TOP, "bench/measure.py"),
                BENCH,
                "--tries",
                "1",
                "--out",
                folder,
                "calls",
            ]
            told = subprocess.run(words, stdout=subprocess.PIPE, text=True, timeout=600, check=True).stdout
            with open(os.path.join(folder, "calls.tsv"), encoding="utf-8") as it:
                rows = [line.rstrip("\n").split("\t") for line in it]
            self.assertEqual((len(rows), rows[0]), (13, ["series", "x", "median", "least", "greatest"]))
            self.assertTrue(all(float(row[3]) <= float(row[2]) <= float(row[4]) for row in rows[1:]))
            self.assertEqual(len(re.findall(r"^\| (?:invoke|put), ", told, re.M)), 4)


if __name__ == "__main__":
    unittest.main()
