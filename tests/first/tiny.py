"""A small repository with the commands of this one: a library that doesn't wait, and above it a program `jentry` with the command `check FILE`."""
import os
import shutil
import signal
import subprocess
import sys

TOP = os.path.dirname(os.path.dirname(os.path.dirname(os.path.abspath(__file__))))
LIBRARY = """//! A library with one function.
#![tactic(auto)]

pub fn least(x: usize) -> usize {
    x
}
"""
PROGRAM = """//! Answers `check FILE` by how many bytes the first read of the file gives.
#![tactic(auto)]

use std::env;
use std::fs::OpenOptions;
use std::io::{self, Read};

fn main(rt: HostRuntime) -> io::Result<()> {
    for word in env::args(&rt)?.skip(2) {
        let mut file = OpenOptions::new().read(true).open(&rt, word.as_str())?;
        let mut buffer = [0u8; 4096];
        let n = low::least(file.read(&mut buffer)?);
        println!(rt; "accepted {n}")?;
    }
    Ok(())
}
"""
EXPORTS = """//! A library with one function for C.
#![tactic(auto)]

/// The least.
#[unsafe(no_mangle)]
pub extern "C" fn tiny_least(x: usize) -> usize {
    low::least(x)
}
"""
CRATES = "low may_wait=3:\njentry may_wait=2: low\n"
"""Both counts are wrong: neither crate waits."""


def write(path, text):
    os.makedirs(os.path.dirname(path), exist_ok=True)
    with open(path, "w", encoding="utf-8") as it:
        it.write(text)


def make(folder):
    """Makes the repository in a new folder."""
    for name in ("bin", "packaging"):
        shutil.copytree(f"{TOP}/{name}", f"{folder}/{name}", ignore=shutil.ignore_patterns("__pycache__"))
    shutil.copyfile(f"{TOP}/HANDLES", f"{folder}/HANDLES")
    # The module by which bin/test names failed tests.
    os.makedirs(f"{folder}/tests/program")
    shutil.copyfile(f"{TOP}/tests/program/failed.py", f"{folder}/tests/program/failed.py")
    write(f"{folder}/crates.txt", CRATES)
    write(f"{folder}/crates/low/src/lib.rt", LIBRARY)
    write(f"{folder}/crates/jentry/src/main.rt", PROGRAM)
    for example in ("crates/jentry/data", "examples"):
        os.makedirs(f"{folder}/{example}")
        shutil.copyfile(f"{TOP}/examples/Plus.class", f"{folder}/{example}/Plus.class")
    write(f"{folder}/.gitignore", "out/\n__pycache__/\n")
    for words in (
        ["init", "-q"],
        ["add", "."],
        ["-c", "user.name=t", "-c", "user.email=t@localhost", "commit", "-qm", "first"],
    ):
        subprocess.run(["git", "-C", folder, *words], check=True)


def run(folder, *words, limit=900, **variables):
    """Runs a command. Returns its standard output, its standard error and its status. After `limit` seconds it kills the command and all processes
    that it started, and raises TimeoutExpired."""
    how = {
        "stdin": subprocess.DEVNULL,
        "stdout": subprocess.PIPE,
        "stderr": subprocess.PIPE,
        "text": True,
        "start_new_session": True,
    }
    with subprocess.Popen(words, cwd=folder, env={**os.environ, **variables}, **how) as ran:
        try:
            output, errors = ran.communicate(timeout=limit)
        except subprocess.TimeoutExpired:
            os.killpg(ran.pid, signal.SIGKILL)
            raise
    return output, errors, ran.returncode


def has_front_crates():
    """Returns whether Debian's packages of the front's crates are installed, from which bin/release builds the front without a network."""
    ran = subprocess.run(
        [f"{TOP}/clients/front/cargo", "metadata", "--format-version", "1"],
        env={**os.environ, "FRONT_CRATES": "debian"},
        stdin=subprocess.DEVNULL,
        capture_output=True,
        check=False,
    )
    return ran.returncode == 0


if __name__ == "__main__":
    make(sys.argv[1])
