"""Classes, and what the program printed of them before it knew Boolean.

usage: second_profile.py PROGRAM >tests/program/second_profile.tsv

PROGRAM is a `jentry` that judges by the second profile, such as that of commit 9c52cdf3. A line has the name of a class and the line of `check`. A
line of changed classes has the name of a class file and N, `each N`, and of the classes that every Nth change of one of its bytes makes: which are
accepted, as a number whose bits are their places, and a checksum of their bounds.
"""
import glob
import hashlib
import os
import struct
import subprocess
import sys
from itertools import islice

import row_classes as rows

TOP = os.path.dirname(os.path.dirname(os.path.dirname(os.path.abspath(__file__))))
FOLDERS = ("examples", "examples/refused", "clients/processors", "tests/program/classes")
CHANGED = [
    ("examples/Plus", 23),
    ("examples/Counter", 23),
    ("examples/Ratio", 23),
    ("examples/Add", 61),
    ("examples/Fare", 97),
]
"""Class files, and how many of their changes one is taken of."""
BATCH = 512
"""The replies to this number of classes fit into a pipe."""
MOST_CLASSES = 4096
"""The number of classes that a stream accepts."""
DEFINED = 1


def file_of(name):
    with open(os.path.join(TOP, name + ".class"), "rb") as it:
        return it.read()


def classes():
    """Yields the names and the bytes of the classes."""
    for folder in FOLDERS:
        for path in sorted(glob.glob(os.path.join(TOP, folder, "*.class"))):
            name = os.path.relpath(path, TOP)[: -len(".class")]
            yield name, file_of(name)
    for name in rows.CLASSES:
        yield name, rows.named(name)
    for count, calls in ((1, 1), (18, 2), (19, 2), (20, 2), (21, 2), (63, 1), (64, 1)):
        yield f"line_of({count}, {calls})", rows.line_of(count, calls)
    yield "diamond(800)", rows.diamond(800)
    yield "costly_counter()", rows.costly_counter()


def changed(file, each):
    """Yields every Nth class that differs from a class in one byte."""

    def all_changes():
        for place, own in enumerate(file):
            for byte in range(256):
                if byte != own:
                    yield file[:place] + bytes([byte]) + file[place + 1 :]

    return islice(all_changes(), 0, None, each)


def frame(text):
    return struct.pack(">I", len(text)) + text


def judged(program, files):
    """Returns the bounds of steps and words of each class that `serve` accepts, by its place."""
    files, bounds = list(files), {}
    for first in range(0, len(files), BATCH):
        given = b"".join(frame(b"\1" + file) for file in files[first : first + BATCH]) + frame(b"\x08")
        told = subprocess.run(
            [program, "serve", "--workers", "0"], input=given, stdout=subprocess.PIPE, check=True
        ).stdout
        at, place = 0, first
        while place < min(first + BATCH, len(files)):
            (length,) = struct.unpack_from(">I", told, at)
            if told[at + 4] == DEFINED:
                bounds[place] = struct.unpack_from(">II", told, at + 9)
            at, place = at + 4 + length, place + 1
    return bounds


def summary(bounds):
    """Returns the places of accepted classes as a number, and a checksum of their bounds."""
    text = "".join(f"{place} {steps} {words}\n" for place, (steps, words) in sorted(bounds.items()))
    return sum(1 << place for place in bounds), hashlib.sha256(text.encode()).hexdigest()


def lines(program):
    """Yields the lines of the table."""
    for name, file in classes():
        said = subprocess.run([program, "check", "/dev/stdin"], input=file, stdout=subprocess.PIPE, check=False).stdout
        yield f"{name}\t{said.decode().strip()}"
    for name, each in CHANGED:
        places, checksum = summary(judged(program, changed(file_of(name), each)))
        yield f"{name} each {each}\t{places:x}\t{checksum}"


if __name__ == "__main__":
    if len(sys.argv) != 2:
        sys.exit(__doc__)
    for row in lines(sys.argv[1]):
        print(row, flush=True)
