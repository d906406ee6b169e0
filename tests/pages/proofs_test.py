"""docs/PROOFS.md quotes the crates: each of its code blocks is in the file that the line before it names, line by line."""
import os
import re
import unittest

from page import TOP, text_of

PAGE = "docs/PROOFS.md"
QUOTED = re.compile(r"^(crates/\S+):\n\n```\n(.*?)^```$", re.MULTILINE | re.DOTALL)
NAMED = re.compile(r"`((?:bin/|rt )[\w-]+)")


class Proofs(unittest.TestCase):
    def test_each_block_is_in_the_file_that_is_named(self):
        page = text_of(PAGE)
        quoted = QUOTED.findall(page)
        self.assertEqual(len(quoted), page.count("\n```\n") // 2)
        self.assertGreaterEqual(len(quoted), 5)
        for path, block in quoted:
            self.assertIn(f"\n{block}", text_of(path), path)

    def test_the_commands_exist(self):
        commands = set(NAMED.findall(text_of(PAGE)))
        self.assertIn("bin/rt", commands)
        for command in commands:
            if command.startswith("bin/"):
                self.assertTrue(os.access(os.path.join(TOP, command), os.X_OK), command)


if __name__ == "__main__":
    unittest.main()
