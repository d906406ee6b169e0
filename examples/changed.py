#!/usr/bin/env python3
"""changed: sends classes with one changed byte to `jentry serve`, runs those that are accepted, and counts what was answered.

    changed.py [--each N] [--run N] [FILE..]

Of each FILE (without any: Plus.class, Counter.class and Ratio.class beside this script) every byte is changed to each of the 255 others.
Each class that is accepted is invoked on key 7 without arguments and with the argument 1, where there is no entry and where the entry is 41. It
must return or throw, and where it throws the entry must be as before. With `--each N` only each Nth class is sent. With `--run N` each Nth
accepted class (without it each 50th) is also run by `jentry run`, and must answer the same within the instructions and array words that its
definition was told. The program is the built one, or what JENTRY names. The status is 1 if a stream ends otherwise than it should, or an
answer is another than these.
"""
import argparse
import os
import struct
import subprocess
import sys
import tempfile
from collections import Counter
from itertools import islice

import built
import frames

BATCH = 512
"""So many classes are sent at once: their replies fit in a pipe."""

MOST_CLASSES = 4096
"""So many classes a stream accepts."""

LEVELS = {
    "A, layout": range(1, 7),
    "B, shape": range(7, 16),
    "C, instructions": [*range(16, 21), 24],
    "D, types": [21, 22, 23, 26],
    "E, bounds": [25, 27, 28, 29],
    "no memory": [30],
}

THREW, RETURNED = "threw", "returned"

KEY = 7

CALLS = ((None, ()), (41, ()), (None, ("1",)), (41, ("1",)))
"""The entries that there are, and the arguments."""


class Wrong(Exception):
    """An answer that must not be."""


def changed(data):
    """Each class with one other byte."""
    for place, own in enumerate(data):
        for byte in range(256):
            if byte != own:
                yield data[:place] + bytes([byte]) + data[place + 1 :]


class Stream:
    """A process of `jentry serve`."""

    def __init__(self, program):
        words = [program, "serve", "--workers", "1", "--stripes", "1"]
        self.process = subprocess.Popen(words, stdin=subprocess.PIPE, stdout=subprocess.PIPE, stderr=subprocess.PIPE)
        self.accepted = 0

    def ask(self, texts):
        """The replies to requests, which are written together, but for those to rounds' ends."""
        try:
            self.process.stdin.write(b"".join(map(frames.frame, texts)))
            self.process.stdin.flush()
            replies = [self.reply() for _ in texts]
        except BrokenPipeError:
            self.end()
            raise Wrong("the stream ended while it was written") from None
        return [reply for reply in replies if reply != b"\11"]

    def reply(self):
        head = self.process.stdout.read(4)
        if len(head) < 4:
            self.end()
            raise Wrong("the stream ended without a reply")
        return self.process.stdout.read(struct.unpack(">I", head)[0])

    def end(self):
        output, errors = self.process.communicate()
        if self.process.returncode != 0 or output or errors:
            raise Wrong(
                f"the stream ended with status {self.process.returncode}, {len(output)} bytes more and {errors}"
            )


END = frames.request_text("end")


def calls_of(number):
    """The requests that make each call of a class, and ask for the entry that is left."""
    for entry, arguments in CALLS:
        made = frames.request_text("remove", KEY) if entry is None else frames.request_text("put", KEY, entry)
        for text in (made, frames.request_text("invoke", number, KEY, *arguments), frames.request_text("get", KEY)):
            yield text
            yield END


def outcome_of(entry, result, left):
    """What a run answered, in words, and whether it returned."""
    if result[0] != 6 or result[1] > 1 or left[0] != 4:
        raise Wrong(f"an invocation is answered {result.hex()}, {left.hex()}")
    now = None if left[1] == 0 else struct.unpack_from(">q", left, 2)[0]
    threw = result[1] == 1
    if threw and now != entry:
        raise Wrong(f"an exception left {now} of {entry}")
    return frames.outcome_of(result[1:])[0], THREW if threw else RETURNED


class Told:
    """What all streams answered."""

    def __init__(self, program, run_each):
        self.program, self.run_each = program, run_each
        self.refused, self.outcomes, self.accepted, self.run = Counter(), Counter(), 0, 0

    def add(self, stream, classes):
        """Defines classes, and runs those that are accepted."""
        replies = stream.ask([b"\1" + data for data in classes] + [END])
        accepted = []
        for data, reply in zip(classes, replies, strict=True):
            if reply[0] == 1:
                accepted.append((data, *struct.unpack(">III", reply[1:])))
            elif reply[0] == 2:
                self.refused[reply[1]] += 1
            else:
                raise Wrong(f"a class is answered {reply.hex()}")
        numbers = [number for _, number, _, _ in accepted]
        if numbers != list(range(stream.accepted, stream.accepted + len(accepted))):
            raise Wrong(f"classes are numbered {numbers} behind {stream.accepted}")
        stream.accepted += len(accepted)
        for data, number, steps, words in accepted:
            self.add_accepted(stream, data, number, steps, words)

    def add_accepted(self, stream, data, number, steps, words):
        replies = stream.ask(list(calls_of(number)))
        told = [outcome_of(entry, *replies[3 * i + 1 : 3 * i + 3]) for i, (entry, _) in enumerate(CALLS)]
        self.outcomes.update(kind for _, kind in told)
        if self.accepted % self.run_each == 0:
            for call, (outcome, _) in zip(CALLS, told, strict=True):
                self.add_run(data, call, outcome, steps, words)
        self.accepted += 1

    def add_run(self, data, call, outcome, steps, words):
        """Runs a class by itself, and compares what it took with its bounds."""
        with tempfile.NamedTemporaryFile(suffix=".class") as file:
            file.write(data)
            file.flush()
            entry, arguments = call
            command = [self.program, "run", file.name, str(KEY), "none" if entry is None else str(entry), *arguments]
            ran = subprocess.run(command, capture_output=True, text=True)
        lines = ran.stdout.splitlines()
        if ran.returncode not in (0, 4) or ran.stderr or len(lines) != 3:
            raise Wrong(f"a run ends with status {ran.returncode}: {ran.stdout}{ran.stderr}")
        _, made, _, grown = lines[2].split()
        if lines[0].removeprefix("result ") != outcome or int(made) > steps or int(grown) > words:
            raise Wrong(f"a run tells {lines}, not {outcome} within {steps} steps and {words} words")
        self.run += 1

    def lines(self):
        yield f"accepted {self.accepted}, refused {self.refused.total()}"
        for level, numbers in LEVELS.items():
            by_number = {number: self.refused[number] for number in numbers if self.refused[number]}
            if by_number:
                parts = ", ".join(f"{number}: {count}" for number, count in by_number.items())
                yield f"  level {level}: {sum(by_number.values())} ({parts})"
        yield f"invocations: returned {self.outcomes[RETURNED]}, threw {self.outcomes[THREW]}; run by themselves within their bounds: {self.run}"


def tell(program, path, each, run_each):
    """Sends the changed classes of a file through as many streams as they need."""
    with open(path, "rb") as file:
        left = islice(changed(file.read()), 0, None, each)
    told, streams, classes = Told(program, run_each), 0, list(islice(left, BATCH))
    while classes:
        stream, streams = Stream(program), streams + 1
        while classes and stream.accepted + len(classes) <= MOST_CLASSES:
            told.add(stream, classes)
            classes = list(islice(left, BATCH))
        stream.end()
    print(f"{os.path.basename(path)}: streams {streams}, each ended without a fault")
    for line in told.lines():
        print(line, flush=True)


def main():
    parser = argparse.ArgumentParser(description=__doc__, formatter_class=argparse.RawDescriptionHelpFormatter)
    parser.add_argument("--each", type=int, default=1)
    parser.add_argument("--run", type=int, default=50)
    parser.add_argument(
        "files", nargs="*", default=[os.path.join(built.HERE, f"{name}.class") for name in ("Plus", "Counter", "Ratio")]
    )
    words = parser.parse_args()
    try:
        program = built.program()
        for path in words.files:
            tell(program, path, words.each, words.run)
    except Wrong as wrong:
        sys.exit(f"changed: {wrong}")


if __name__ == "__main__":
    main()
