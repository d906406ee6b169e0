"""The commands on the pages print what the pages say."""
import os
import sys
import unittest

from page import TOP

sys.path.insert(0, os.path.join(TOP, "examples"))
import pages

PROGRAM = os.environ.get("JENTRY_PROGRAM")


@unittest.skipUnless(PROGRAM, "there is no program (bin/build makes it)")
class Commands(unittest.TestCase):
    def test_pages_show_what_is_printed(self):
        shown = [(page, *it) for page in pages.pages_of_the_repository() for it in pages.commands_of(page)]
        self.assertGreater(len(shown), 30)
        self.assertLessEqual(
            {"docs/PROTOCOL.md", "docs/PROCESSORS.md", "examples/README.md", "README.md"}, {it[0] for it in shown}
        )
        for page, line, command, wanted in shown:
            with self.subTest(page=page, line=line):
                self.assertEqual(pages.printed(command, PROGRAM), wanted)


if __name__ == "__main__":
    unittest.main()
