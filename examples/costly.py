#!/usr/bin/env python3
"""costly: writes class files that are as dear to judge as their 65,536 bytes allow, and tells what `jentry check` takes for each.

    costly.py FOLDER [WORD..]          writes the classes into FOLDER, checks each, prints a table
    costly.py --only-write FOLDER [WORD..]     writes them alone

With WORDs only those classes whose names have one of them. Each class has one part that repeats, as often as fits. The program is the built one,
or what JENTRY names. It needs Linux. The status is 1 if a class isn't judged as it should be.
"""
import ctypes
import os
import subprocess
import sys
import tempfile
import time

import built
from costly_classes import CLASSES

LIMIT = 65_536
"""The most bytes of a class."""


def size(costly, number):
    return len(costly.of(number).bytes())


def fitting(costly):
    """The class with the greatest number that fits, and the number. A class grows by about as much with each number."""
    few, more = size(costly, 1), size(costly, 101)
    number = min(1 + (LIMIT - few) * 100 // (more - few), costly.most)
    while size(costly, number) > LIMIT:
        number -= 1
    while number < costly.most and size(costly, number + 1) <= LIMIT:
        number += 1
    return number, costly.of(number).bytes()


def measured(words):
    """What a program writes, and what it took: by the clock, on a processor, and in memory. The program is started by a shell that ends at once, and
    is then a child of this process: else the peak of this process would count as its own."""
    with tempfile.TemporaryFile() as output:
        begin = time.monotonic()
        subprocess.run(["sh", "-c", '"$@" &', "sh", *words], stdout=output, check=True)
        _, _, used = os.wait4(-1, 0)
        clock = time.monotonic() - begin
        output.seek(0)
        told = output.read().decode().strip()
    return told, clock, used.ru_utime + used.ru_stime, used.ru_maxrss / 1024


def main(words):
    only_write = words[:1] == ["--only-write"]
    words = words[only_write:]
    if not words or words[0].startswith("-"):
        sys.exit(__doc__)
    folder, names = words[0], words[1:]
    os.makedirs(folder, exist_ok=True)
    status = 0
    if not only_write:
        program = built.program()
        ctypes.CDLL(None).prctl(36, 1, 0, 0, 0)  # PR_SET_CHILD_SUBREAPER
        print("| Class | Bytes | Verdict | Clock, s | Processor, s | Memory, MB |\n|---|---|---|---|---|---|")
    for it in CLASSES:
        if names and not any(name in it.name for name in names):
            continue
        number, data = fitting(it)
        path = os.path.join(folder, it.name + ".class")
        with open(path, "wb") as file:
            file.write(data)
        if only_write:
            continue
        told, clock, processor, memory = measured([program, "check", path])
        text = it.text.format(n=f"{number:,}")
        print(
            f"| {it.name}: {text} | {len(data):,} | {told} | {clock:.2f} | {processor:.2f} | {memory:.0f} |", flush=True
        )
        if not told.startswith(it.verdict):
            print(f"costly: {it.name}: not {it.verdict}", file=sys.stderr)
            status = 1
    return status


if __name__ == "__main__":
    sys.exit(main(sys.argv[1:]))
