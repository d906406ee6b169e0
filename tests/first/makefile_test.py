"""The Makefile at the top: what each of its targets runs, by `make -n`, which runs nothing."""
import os
import re
import shutil
import subprocess
import unittest

import tiny

COMMANDS = {
    "build": '"bin/build"',
    "test": '"bin/test"',
    "quick": '"bin/test" quick',
    "lint": '"bin/lint"',
    "bench": '"bin/bench"',
    "release VERSION=0.3.0": '"bin/release" "0.3.0"',
}
"""What each target runs, from the top."""


@unittest.skipUnless(shutil.which("make"), "there is no make (apt-get install make)")
class Targets(unittest.TestCase):
    def make(self, *words, folder=tiny.TOP):
        """Runs make with these arguments. Returns its output, with the paths from the top."""
        # A make that runs the tests hands its options to this one.
        variables = {
            name: value for name, value in os.environ.items() if name not in ("MAKEFLAGS", "MAKELEVEL", "MFLAGS")
        }
        ran = subprocess.run(["make", *words], cwd=folder, env=variables, capture_output=True, text=True)
        self.assertEqual((ran.returncode, ran.stderr), (0, ""))
        return ran.stdout.replace(os.path.realpath(tiny.TOP) + "/", "")

    def test_each_target_runs_its_command(self):
        for words, command in COMMANDS.items():
            with self.subTest(target=words):
                self.assertEqual(self.make("-n", *words.split()), command + "\n")
                self.assertTrue(os.access(os.path.join(tiny.TOP, command.split('"')[1]), os.X_OK))

    def test_the_default_lists_all_targets(self):
        listed = re.findall(r"^  make (\w+) +\S", self.make(), re.M)
        self.assertEqual(listed, ["help", *(words.split()[0] for words in COMMANDS)])

    def test_it_runs_from_another_folder(self):
        top = os.path.realpath(tiny.TOP)
        self.assertEqual(self.make("-n", "-f", f"{top}/Makefile", "lint", folder="/"), COMMANDS["lint"] + "\n")


if __name__ == "__main__":
    unittest.main()
