"""Two releases of this commit for the tests: each in a clone of its own, with another umask and another time zone."""
import functools
import os
import shutil
import subprocess
import tempfile
import unittest

import tiny
from shared import sum_of, text_of

VERSION = text_of(f"{tiny.TOP}/packaging/version").strip()
CLONES = (("one", "022", "UTC"), ("another/with/a/longer/path", "077", "Asia/Tokyo"))
ROOM = tempfile.TemporaryDirectory()
"""The folder of the clones. It goes with the process."""


def program():
    """Returns the built program that the tests run on, or None. A trial build isn't used: it is twenty times as large, and slow to pack."""
    found = os.path.abspath(os.environ.get("JENTRY_PROGRAM", f"{tiny.TOP}/crates/jentry/out/jentry"))
    return found if os.access(found, os.X_OK) and not os.environ.get("JENTRY_TRIAL") else None


def why_not():
    """Returns why there can be no release here, or None."""
    if not program():
        return "there is no proved program to pack"
    if not all(map(shutil.which, ("javac", "cargo", "dpkg-deb"))):
        return "it needs javac, cargo and dpkg-deb (apt-get install default-jdk-headless cargo dpkg)"
    if not tiny.has_front_crates():
        return "it needs the front's crates (clients/front/cargo packages lists them)"
    if not os.path.exists("/usr/share/java/asm-commons.jar"):
        return "it needs ASM (apt-get install libasm-java)"
    return None


NEEDED = unittest.skipIf(why_not(), why_not())
"""Skips a class of tests where there can be no release."""


@functools.lru_cache(maxsize=None)
def folders():
    """Makes the releases at its first call. Returns the folders that their files are in."""
    made = []
    for name, mask, zone in CLONES:
        folder = f"{ROOM.name}/{name}"
        subprocess.run(["git", "clone", "-q", tiny.TOP, folder], check=True)
        words = ["sh", "-c", f"umask {mask}; bin/release {VERSION} built"]
        variables = {"JENTRY_NOT_PROVED": program(), "JENTRY_EMBED": "", "TZ": zone}
        output, errors, status = tiny.run(folder, *words, **variables)
        assert status == 0, errors
        assert output.splitlines()[-1] == f"- program sha256 {sum_of(program())}", output
        made.append(f"{folder}/built")
    return made
