"""Shared by several commands in this folder: the repository's paths, its scripts as modules, and the releases in CHANGELOG.md."""
import hashlib
import importlib.machinery
import importlib.util
import os
import re
import shutil
import sys

TOP = os.path.dirname(os.path.dirname(os.path.realpath(__file__)))
KIT_LOGIC = "dac8208d650f15bf"
"""The logic of the kits whose proofs the gate passes: `rt version` ends with it. Kits of one logic prove the same."""
RELEASE = re.compile(r"^## (\d+\.\d+\.\d+)\b[^\n]*\n(.*?)(?=^## |\Z)", re.MULTILINE | re.DOTALL)
SUM = re.compile(r"sha256[^\n]*\b([0-9a-f]{64})\b")

sys.dont_write_bytecode = True


def load_script(name):
    """Loads a command in this folder as a module."""
    loader = importlib.machinery.SourceFileLoader(f"repository_{name}", f"{TOP}/bin/{name}")
    made = importlib.util.module_from_spec(importlib.util.spec_from_loader(loader.name, loader))
    loader.exec_module(made)
    return made


def kit_folder():
    """Returns the folder of the kit on PATH, or None."""
    ours = os.path.realpath(f"{TOP}/bin/rt")
    for folder in os.environ.get("PATH", "").split(os.pathsep):
        found = shutil.which("rt", path=folder)
        if found and os.path.realpath(found) != ours:
            return os.path.dirname(os.path.dirname(os.path.realpath(found)))
    return None


def text_of(file):
    """Returns the text of a file, empty if there is no such file."""
    try:
        with open(file, encoding="utf-8", errors="replace") as it:
            return it.read()
    except FileNotFoundError:
        return ""


def sum_of(file):
    """Returns the sha256 of a file in hexadecimal."""
    with open(file, "rb") as it:
        return hashlib.sha256(it.read()).hexdigest()


def newest_release(changelog):
    """Returns the version of the newest built release in the text of a changelog and the sha256 of its program, or None."""
    for version, section in RELEASE.findall(changelog):
        found = SUM.search(section)
        if found:
            return version, found[1]
    return None


def no_kit(changelog):
    """Returns what to do without a kit: to install one, or, if a changelog lists a built release, to take that."""
    newest = newest_release(changelog)
    return (
        f"there is no Rattle kit on this machine: install one with logic {KIT_LOGIC} and put the folder of its rt on PATH"
        + (f"; release {newest[0]}, a jentry_{newest[0]}_amd64.deb and a .tar.xz, needs none" if newest else "")
    )


NO_KIT = no_kit(text_of(f"{TOP}/CHANGELOG.md"))


def compare_with_release(program, changelog):
    """Returns words that say whether a program is that of the newest release."""
    newest = newest_release(changelog)
    if newest is None:
        return "CHANGELOG.md lists no built release to compare it with"
    version, wanted = newest
    found = sum_of(program)
    return (
        f"it is the program of release {version}"
        if found == wanted
        else f"it is not the program of release {version} (sha256 {found} here, {wanted} there)"
    )
