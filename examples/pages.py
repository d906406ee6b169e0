#!/usr/bin/env python3
"""Runs the commands that the pages show, and holds what they print to what the pages say.

usage: pages.py [--program PROGRAM] [PAGE..]
Without pages it takes all of the repository. In a page a command stands behind `$ ` in a code block, and what it prints in the lines behind it; a
block that README begins with `bin/jentry`, and the block behind it, are such a pair too. Where a program is named it runs in place of `bin/jentry`.
The last line is 'N passed, M failed'. Where the program isn't built yet, the first command builds it.
"""
import argparse
import glob
import os
import re
import shlex
import subprocess
import sys

TOP = os.path.dirname(os.path.dirname(os.path.abspath(__file__)))
FENCE = "```"
LAUNCHER = re.compile(r"(?<![\w/.-])bin/jentry(?![\w-])")
LIMIT = 7200
# Commands that need a server of their own: the tests of clients/redis run such.
SERVED = ("redis-cli", "redis-server")


def pages_of_the_repository():
    """All pages, by their paths from the top."""
    found = [
        *glob.glob(os.path.join(TOP, "*.md")),
        *glob.glob(os.path.join(TOP, "docs", "*.md")),
        *glob.glob(os.path.join(TOP, "examples", "*.md")),
    ]
    return sorted(os.path.relpath(it, TOP) for it in found)


def blocks_of(page):
    """The code blocks of a page: the number of the first line of each, and its lines."""
    with open(os.path.join(TOP, page), encoding="utf-8") as it:
        lines = it.read().split("\n")
    fences = [at for at, line in enumerate(lines) if line.startswith(FENCE)]
    return [(start + 2, lines[start + 1 : end]) for start, end in zip(fences[::2], fences[1::2])]


def commands_of(page):
    """The commands of a page's code blocks: the line's number, the command, and what it is to print."""
    found, blocks = [], blocks_of(page)
    for number, (first, lines) in enumerate(blocks):
        inside = None
        for at, line in enumerate(lines, first):
            if line.startswith("$ "):
                inside = (at, line[2:], [])
                found.append(inside)
            elif inside:
                inside[2].append(line)
        if len(lines) == 1 and lines[0].startswith("bin/jentry run ") and number + 1 < len(blocks):
            found.append((first, lines[0], blocks[number + 1][1]))
    return [it for it in found if "..." not in it[2] and not it[1].startswith(SERVED)]


def printed(command, program=None):
    """The lines that a command prints, on either output."""
    if program:
        command = LAUNCHER.sub(lambda _: shlex.quote(os.path.abspath(program)), command)
    done = subprocess.run(
        ["bash", "-c", command], cwd=TOP, stdout=subprocess.PIPE, stderr=subprocess.STDOUT, text=True, timeout=LIMIT
    )
    # What the launcher says of a trial build is no part of what a command prints.
    lines = [line for line in done.stdout.split("\n") if not line.startswith("jentry: ")]
    return "\n".join(lines).rstrip("\n").split("\n") if "".join(lines).strip() else []


def main(words):
    parser = argparse.ArgumentParser(description=__doc__.split("\n")[0])
    parser.add_argument("--program", help="run this in place of bin/jentry")
    parser.add_argument("page", nargs="*")
    options = parser.parse_intermixed_args(words)
    passed = failed = 0
    for page in options.page or pages_of_the_repository():
        for at, command, wanted in commands_of(page):
            got = printed(command, options.program)
            if got == wanted:
                passed += 1
                continue
            failed += 1
            print(f"{page}:{at}: {command}\n  wanted {wanted}\n  printed {got}")
    print(f"{passed} passed, {failed} failed")
    return 1 if failed else 0


if __name__ == "__main__":
    sys.exit(main(sys.argv[1:]))
