"""Debian packages that tests need. They are installed if this process may install them, else the test is skipped."""
import os
import shutil
import subprocess
import unittest

LIMIT = 600


def need(**programs):
    """Skips the calling test unless each program is installed: `need(promtool="prometheus")` names its package. If this process is root and
    there is apt-get, the missing packages are installed, without starting their services."""
    missing = sorted({package for program, package in programs.items() if not shutil.which(program)})
    if missing and os.geteuid() == 0 and shutil.which("apt-get"):
        for words in (["update", "-q"], ["install", "-y", "-q", "--no-install-recommends", *missing]):
            subprocess.run(
                ["apt-get", *words],
                stdin=subprocess.DEVNULL,
                stdout=subprocess.DEVNULL,
                stderr=subprocess.DEVNULL,
                timeout=LIMIT,
                env={**os.environ, "DEBIAN_FRONTEND": "noninteractive", "RUNLEVEL": "1"},
                check=False,
            )
        missing = sorted({package for program, package in programs.items() if not shutil.which(program)})
    if missing:
        raise unittest.SkipTest(f"packages are missing (apt-get install {' '.join(missing)})")
