"""Builds the package with the class files of the built-in processors, which the repository keeps next to their sources."""
import glob
import os
import shutil

from setuptools import setup
from setuptools.command.build_py import build_py
from setuptools.command.sdist import sdist

HERE = os.path.dirname(os.path.abspath(__file__))
PACKAGE = "jentry_processors"
# The folder of the class files in a source distribution, and in the repository.
PLACES = (os.path.join(HERE, PACKAGE), os.path.join(HERE, "../processors"))


def copy_processors(folder):
    """Copies the class files into the package in a folder."""
    for place in PLACES:
        files = glob.glob(os.path.join(place, "*.class"))
        if files:
            for file in files:
                shutil.copy(file, os.path.join(folder, PACKAGE))
            return
    raise FileNotFoundError(f"there are no class files in {' or '.join(PLACES)}")


class BuildWithProcessors(build_py):
    """Builds the modules, and copies the class files next to them."""

    def run(self):
        super().run()
        copy_processors(self.build_lib)


class SourcesWithProcessors(sdist):
    """Makes a source distribution with the class files, so that the package can be built outside the repository."""

    def make_release_tree(self, base_dir, files):
        super().make_release_tree(base_dir, files)
        copy_processors(base_dir)


setup(cmdclass={"build_py": BuildWithProcessors, "sdist": SourcesWithProcessors})
