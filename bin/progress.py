"""The progress of a build: the crates that are proved, and an estimate of the time left."""
import sys
import threading
import time

BUSY = 0.72
"""The part of the processors that a build from nothing keeps busy, measured on four."""
SPEED = 1.5
"""The number of processors that one crate's proof uses, measured with four jobs."""
CREDIT = 0.9
"""The maximum part of a crate's weight that counts as done while its proof runs."""
SETTLING = 60
"""Seconds at the estimated pace that count as passed from the start, so that one quick crate doesn't set the pace."""
TICK = 2
"""Seconds between two updates of the line on a terminal."""


def chains(below, weights):
    """Returns for each crate the weight of the longest chain that begins with it and goes up. `below` has the names of all crates below each
    crate."""
    longest = {}
    for name in sorted(below, key=lambda it: -len(below[it])):
        above = [longest[it] for it in longest if name in below[it]]
        longest[name] = weights[name] + max(above, default=0)
    return longest


class Estimate:
    """Estimates the time of the proofs: first by measured seconds, and then by the pace of this run."""

    def __init__(self, below, weights, processors):
        self.below, self.weights, self.processors = below, weights, processors
        self.whole = self.least(weights)

    def least(self, weights):
        """Returns the elapsed seconds for these processor seconds: the larger of the time for all processors and the time for the longest chain."""
        chain = max(chains(self.below, weights).values(), default=0)
        return max(sum(weights.values()) / (BUSY * self.processors), chain / SPEED)

    def left(self, passed, done, running):
        """Returns the seconds left after `passed` seconds. `done` has the names of the finished crates, and `running` the seconds of each one that
        runs."""
        weights = {name: 0 if name in done else weight for name, weight in self.weights.items()}
        for name, since in running.items():
            weights[name] -= min(since * SPEED, CREDIT * weights[name])
        left = self.least(weights)
        pace = (passed + SETTLING) / (self.whole - left + SETTLING)
        return left * pace


def in_words(seconds):
    return (
        f"about {seconds / 60:.0f} min left"
        if seconds >= 90
        else "about a minute left"
        if seconds >= 30
        else "less than a minute left"
    )


class Progress:
    """Shows the progress on standard error: on a terminal in one line that is updated, else in a line for each proved crate."""

    def __init__(self, name, estimate, reused=frozenset(), note=""):
        """`reused` has the names of the crates that needn't be proved, and `note` goes into the first line."""
        self.name, self.estimate, self.reused, self.done, self.running = name, estimate, reused, set(), {}
        self.began, self.lock, self.ended = time.monotonic(), threading.Lock(), threading.Event()
        count = f"{len(estimate.weights) - len(reused)} of " if reused else ""
        print(
            f"{name}: proving and building {count}{len(estimate.weights)} crates, {in_words(estimate.whole)}{note and f' ({note})'}",
            file=sys.stderr,
            flush=True,
        )
        if sys.stderr.isatty():
            threading.Thread(target=self.tick, daemon=True).start()

    def begin(self, crate):
        with self.lock:
            self.running[crate] = time.monotonic()

    def finish(self, crate):
        with self.lock:
            self.running.pop(crate, None)
            self.done.add(crate)
            if not sys.stderr.isatty() and crate not in self.reused:
                print(self.line(f", {crate}"), file=sys.stderr, flush=True)

    def line(self, last=""):
        now = time.monotonic()
        left = self.estimate.left(
            now - self.began, self.done, {name: now - since for name, since in self.running.items()}
        )
        ending = "" if len(self.done) == len(self.estimate.weights) else f", {in_words(left)}"
        return f"{self.name}: {len(self.done)} of {len(self.estimate.weights)} crates{last} after {now - self.began:.0f} s{ending}"

    def tick(self):
        while not self.ended.wait(TICK):
            with self.lock:
                proving = f", proving {' '.join(self.running)}" if self.running else ""
                print(f"\r\033[K{self.line(proving)}"[:200], end="", file=sys.stderr, flush=True)

    def end(self):
        self.ended.set()
        if sys.stderr.isatty():
            print("\r\033[K", end="", file=sys.stderr, flush=True)
