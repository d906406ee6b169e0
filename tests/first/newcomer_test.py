"""The start of the gate: a newcomer's first command. The gate ends if it fails."""
import os
import shutil
import subprocess
import tempfile
import time
import unittest

import tiny

README = (
    "# tiny\n\n```\ngit clone it\nbin/jentry check examples/Plus.class\n```\n\nThis prints\n\n```\naccepted {}\n```\n"
)
GATE_LIMIT = 300
"""The seconds within which the gate has to fail."""


def commit(folder):
    for words in (["add", "-A"], ["-c", "user.name=t", "-c", "user.email=t@localhost", "commit", "-qm", "changed"]):
        subprocess.run(["git", "-C", folder, *words], check=True)


class Newcomers(unittest.TestCase):
    def setUp(self):
        room = tempfile.TemporaryDirectory()
        self.addCleanup(room.cleanup)
        self.folder = f"{room.name}/tiny"
        tiny.make(self.folder)
        os.makedirs(f"{self.folder}/tests/first")
        shutil.copy(f"{tiny.TOP}/tests/first/newcomer", f"{self.folder}/tests/first/newcomer")

    def newcomer(self, readme):
        tiny.write(f"{self.folder}/README.md", readme)
        commit(self.folder)
        return tiny.run(self.folder, "tests/first/newcomer")

    def test_the_first_command_of_the_readme_answers(self):
        output, errors, status = self.newcomer(README.format(727))
        self.assertEqual((errors, status), ("", 0), output)
        self.assertRegex(
            output,
            r"^newcomer: a clone of [0-9a-f]{9}\nnewcomer: bin/jentry check examples/Plus.class\n"
            r"newcomer: the first command answered after .* s\nnewcomer: the next command answered after .* s\n1 passed, 0 failed\n$",
        )
        # Nothing was built in this folder.
        self.assertFalse(os.path.exists(f"{self.folder}/crates/jentry/out"))

    def test_other_lines_than_those_of_the_readme_fail(self):
        output, _, status = self.newcomer(README.format(728))
        self.assertEqual((output.splitlines()[-1], status), ("0 passed, 1 failed", 1))
        self.assertIn("it printed\naccepted 727\nand README.md says\naccepted 728\n", output)

    def test_a_readme_without_a_first_command_fails(self):
        output, _, status = self.newcomer("# tiny\n\n```\nrt ci\n```\n\n```\n0 passed\n```\n")
        self.assertEqual((output.splitlines()[-1], status), ("0 passed, 1 failed", 1))
        self.assertIn("README.md has no code block", output)

    def test_what_is_no_checkout_is_copied(self):
        shutil.rmtree(f"{self.folder}/.git")
        tiny.write(f"{self.folder}/README.md", README.format(727))
        tiny.write(f"{self.folder}/bin/try", "#!/bin/sh\necho accepted 727\n")
        output, _, status = tiny.run(self.folder, "tests/first/newcomer")
        self.assertEqual(status, 0, output)
        self.assertIn("newcomer: a copy of the files, as this is no git checkout that can be cloned\n", output)


class Gates(unittest.TestCase):
    def test_a_wrong_path_in_bin_jentry_fails_the_gate_at_once(self):
        """The whole repository, with the first command of its README broken: the gate ends with the reason, before any proof."""
        with tempfile.TemporaryDirectory() as room:
            folder = f"{room}/jentry"
            subprocess.run(["git", "clone", "-q", tiny.TOP, folder], check=True)
            with open(f"{folder}/bin/jentry", encoding="utf-8") as it:
                text = it.read()
            self.assertEqual(text.count("/bin/try"), 1)
            tiny.write(f"{folder}/bin/jentry", text.replace("/bin/try", "/bin/absent"))
            commit(folder)
            began = time.monotonic()
            output, _, status = tiny.run(folder, ".ci/run", limit=GATE_LIMIT)
            self.assertLess(time.monotonic() - began, GATE_LIMIT)
            self.assertEqual((output.splitlines()[-1], status), ("0 passed, 1 failed", 1))
            self.assertIn("newcomer: the first command of README.md fails: it ended with status", output)
            self.assertIn("bin/absent", output)
            self.assertIn("nothing else was run", output)
            self.assertFalse(os.path.exists(f"{folder}/.git/gate-passed"))
