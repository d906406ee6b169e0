"""bin/jentry and bin/try in a small repository: when a trial build is made, and by which command."""
import os
import re
import subprocess
import tempfile
import unittest

import tiny
from shared import text_of

MAKING, WAITING = (
    "jentry: making a trial build, a minute or two, once\n",
    "jentry: another command makes the trial build; waiting for it\n",
)
NOT_PROVED = (
    "jentry: NOT PROVED HERE: a trial build, about a thousand times slower; bin/build makes the proved program\n"
)
CHECK = ["bin/jentry", "check", "examples/Plus.class"]


class Trials(unittest.TestCase):
    def setUp(self):
        room = tempfile.TemporaryDirectory()
        self.addCleanup(room.cleanup)
        self.folder = f"{room.name}/tiny"
        tiny.make(self.folder)

    def run_here(self, *words, **variables):
        return tiny.run(self.folder, *words, **variables)

    def at_once(self, count):
        """Runs `count` commands at the same time, which have to succeed. Returns their standard errors, sorted by length."""
        how = {
            "cwd": self.folder,
            "stdin": subprocess.DEVNULL,
            "stdout": subprocess.PIPE,
            "stderr": subprocess.PIPE,
            "text": True,
        }
        ran = [subprocess.Popen(CHECK, **how) for _ in range(count)]
        outputs = [it.communicate(timeout=900) for it in ran]
        self.assertEqual(
            [(it.returncode, output) for it, (output, _) in zip(ran, outputs)], count * [(0, "accepted 727\n")], outputs
        )
        return sorted((errors for _, errors in outputs), key=len)

    def test_a_trial_is_made_once_and_anew_for_other_sources(self):
        # One of two concurrent commands makes it, and both succeed.
        self.assertEqual(self.at_once(2), sorted([MAKING + NOT_PROVED, WAITING + NOT_PROVED], key=len))
        self.assertEqual(self.run_here(*CHECK), ("accepted 727\n", NOT_PROVED, 0))
        # Without a kit the kept trial build runs.
        self.assertEqual(self.run_here(*CHECK, PATH="/usr/bin:/bin"), ("accepted 727\n", NOT_PROVED, 0))
        made = os.stat(f"{self.folder}/crates/jentry/out/trial/jentry").st_ino
        tiny.write(
            f"{self.folder}/crates/jentry/src/main.rt", tiny.PROGRAM.replace("accepted {n}", "accepted {n} more")
        )
        self.assertEqual(self.run_here(*CHECK), ("accepted 727 more\n", MAKING + NOT_PROVED, 0))
        self.assertNotEqual(os.stat(f"{self.folder}/crates/jentry/out/trial/jentry").st_ino, made)
        self.assertEqual(sorted(os.listdir(f"{self.folder}/crates/jentry/out/trial")), ["jentry", "lock", "stamp"])

    def test_the_error_of_sources_that_do_not_compile_is_shown(self):
        tiny.write(
            f"{self.folder}/crates/low/src/lib.rt", "#![tactic(auto)]\n\npub fn least(x: usize) -> usize { y }\n"
        )
        output, errors, status = self.run_here(*CHECK)
        self.assertEqual((output, status), ("", 3))
        self.assertTrue(errors.startswith(f"{MAKING}jentry: no trial build: its last words:\n"), errors)
        self.assertIn("lib.rt:3", errors)

    def test_without_a_kit_and_a_trial_a_line_says_what_to_install(self):
        output, errors, status = self.run_here(*CHECK, PATH="/usr/bin:/bin")
        self.assertEqual((output, status, errors.count("\n")), ("", 3, 1))
        self.assertRegex(
            errors,
            r"^jentry: no trial build: there is no Rattle kit .*: install one with logic [0-9a-f]{16} and put the folder of its rt on PATH",
        )

    def test_no_words_are_answered_by_a_usage_of_ten_lines(self):
        output, errors, status = self.run_here("bin/jentry")
        self.assertEqual((output, status), ("", 1))
        self.assertTrue(errors.startswith("usage: jentry check FILE "))
        self.assertLessEqual(errors.count("\n"), 12)
        self.assertFalse(os.path.exists(f"{self.folder}/crates/jentry/out"))

    def test_help_and_version_are_answered_before_the_program(self):
        """The program ends with status 9, so the answers aren't its own. Neither they nor a usage make a trial build."""
        program = f"{self.folder}/crates/jentry/out/jentry"
        version = f"jentry {text_of(f'{tiny.TOP}/packaging/version').strip()}, checkout of commit "
        for which in ("a trial build, not proved", "the program that bin/build made"):
            for words in (["-h"], ["--help"], ["check", "--help"], ["serve", "-h"]):
                output, errors, status = self.run_here("bin/jentry", *words)
                self.assertEqual((output.partition(" FILE ")[0], errors, status), ("usage: jentry check", "", 0), words)
            output, errors, status = self.run_here("bin/jentry", "--version")
            self.assertEqual((errors, status), ("", 0))
            self.assertRegex(output, rf"^{re.escape(version)}[0-9a-f]+, {which}\n$")
            self.assertEqual(os.path.exists(f"{self.folder}/crates/jentry/out"), "bin/build" in which)
            tiny.write(program, "#!/bin/sh\nexit 9\n")
            os.chmod(program, 0o755)
        # Words that name no help are the program's, also an empty one.
        for words in (["run", "--help", "7"], [""], ["check", "help"]):
            self.assertEqual(self.run_here("bin/jentry", *words), ("", "", 9), words)

    def test_a_proved_program_answers_where_there_is_one(self):
        """Any file at crates/jentry/out/jentry is run, with the arguments and the standard input, and its status is returned."""
        program = f"{self.folder}/crates/jentry/out/jentry"
        tiny.write(program, "#!/bin/sh\necho \"$@\"\ncat\nexit 4\n")
        os.chmod(program, 0o755)
        ran = subprocess.run(
            [f"{self.folder}/bin/jentry", "run", "a b"], input="given", capture_output=True, text=True, timeout=60
        )
        self.assertEqual((ran.stdout, ran.stderr, ran.returncode), ("run a b\ngiven", "", 4))
