#!/usr/bin/env python3
"""test_package: builds and installs the package with pip, with the class files of the built-in processors."""
import glob
import os
import shutil
import subprocess
import sys
import tempfile
import unittest

HERE = os.path.dirname(os.path.abspath(__file__))
sys.path[:0] = [HERE, os.path.join(HERE, "../tests")]
import jentry_processors
from python_cases import HAS_PROCESSORS
from running import PATIENCE, STAND_IN

INSTALLED = """
import sys
import os
import jentry, jentry_aio, jentry_processors
for it in (jentry, jentry_aio, jentry_processors):
    assert it.__file__.startswith(sys.argv[1]), it.__file__
    assert os.path.exists(os.path.join(os.path.dirname(it.__file__), "py.typed")), it.__file__
with jentry.Cache.start(*sys.argv[2:]) as cache:
    cache.put(7, 41)
    print(cache.get(7), *(jentry_processors.file(name)[:4].hex() for name in jentry_processors.NAMES))
"""
BUILDS = (
    "import setuptools, pip; tuple(map(int, setuptools.__version__.split('.')[:2])) >= (70, 1) or __import__('wheel')"
)


class Package(unittest.TestCase):
    @unittest.skipUnless(HAS_PROCESSORS, "the class files of the processors aren't there")
    def test_the_class_files_are_found(self):
        for name in jentry_processors.NAMES:
            self.assertEqual(jentry_processors.file(name)[:4], b"\xca\xfe\xba\xbe")

    def test_a_processor_that_is_not_there(self):
        with self.assertRaises(FileNotFoundError):
            jentry_processors.file("None")

    @unittest.skipUnless(HAS_PROCESSORS, "the class files of the processors aren't there")
    def test_pip_installs_it_from_its_folder_and_from_a_source_distribution(self):
        python = python_that_builds()
        if python is None:
            self.skipTest(
                "pip, setuptools or wheel isn't there (apt-get install python3-pip python3-setuptools python3-wheel)"
            )
        with tempfile.TemporaryDirectory() as folder:
            for name in ("python", "processors"):
                shutil.copytree(
                    os.path.join(HERE, "..", name),
                    os.path.join(folder, name),
                    ignore=shutil.ignore_patterns("__pycache__", "build", "*.egg-info"),
                )
            sources, sent = os.path.join(folder, "python"), os.path.join(folder, "sent")
            self.installs(python, sources, os.path.join(folder, "one"))
            self.run_quietly(python, "setup.py", "-q", "sdist", "-d", sent, cwd=sources)
            shutil.rmtree(os.path.join(folder, "processors"))
            self.installs(python, *glob.glob(os.path.join(sent, "*.tar.gz")), os.path.join(folder, "other"))

    def installs(self, python, sources, target):
        """Installs these sources without a network, and uses the installed package outside the repository."""
        self.run_quietly(
            python, "-m", "pip", "install", "-q", "--no-index", "--no-build-isolation", "--target", target, sources
        )
        told = self.run_quietly(
            python,
            "-B",
            "-c",
            INSTALLED,
            target,
            *STAND_IN,
            env={"PYTHONPATH": target, "PATH": os.environ["PATH"]},
            cwd=target,
        )
        self.assertEqual(told, " ".join(["41"] + 7 * ["cafebabe"]) + "\n")

    def run_quietly(self, *words, **options):
        done = subprocess.run(
            words, stdout=subprocess.PIPE, stderr=subprocess.PIPE, text=True, timeout=PATIENCE, **options
        )
        self.assertEqual(done.returncode, 0, done.stdout + done.stderr)
        return done.stdout


def python_that_builds():
    """Returns a Python that can build a package without a network, or None."""
    for python in (sys.executable, "/usr/bin/python3"):
        if os.path.exists(python) and subprocess.run([python, "-c", BUILDS], stderr=subprocess.DEVNULL).returncode == 0:
            return python
    return None


if __name__ == "__main__":
    unittest.main()
