"""The session in bytes in docs/PROTOCOL.md, run by the built program."""
import os
import re
import subprocess
import unittest

from page import TOP, text_of

PROGRAM = os.environ.get("JENTRY_PROGRAM")


def sessions():
    """Returns the bytes that the client sends and those that the server sends, of each session on the page."""
    return [sides_of(block) for block in re.findall(r"```\n(> 00 00 .*?)```", text_of("docs/PROTOCOL.md"), re.S)]


def sides_of(block):
    """Returns the bytes of the client and those of the server. The page has them as pairs of digits, and files by their names."""
    sides = {">": b"", "<": b""}
    for line in block.rstrip("\n").split("\n"):
        words = re.split(r" {3,}", line[1:].lstrip())[0].split()
        for word in words:
            if "/" in word:
                with open(os.path.join(TOP, word), "rb") as it:
                    sides[line[0]] += it.read()
            else:
                sides[line[0]] += bytes.fromhex(word)
    return sides[">"], sides["<"]


@unittest.skipUnless(PROGRAM, "there is no program (bin/build makes it)")
class Session(unittest.TestCase):
    def holds(self, sent, wanted, *options):
        for workers in ("0", "1", "4"):
            ran = subprocess.run(
                [PROGRAM, "serve", "--workers", workers, *options],
                input=sent,
                stdout=subprocess.PIPE,
                stderr=subprocess.PIPE,
                timeout=60,
            )
            self.assertEqual((ran.returncode, ran.stderr.decode()), (0, ""))
            self.assertEqual(ran.stdout.hex(" "), wanted.hex(" "))

    def test_the_bytes_are_these(self):
        first, second = sessions()
        self.assertGreater(len(first[0]), 800)
        self.holds(*first)
        self.holds(*first, "--protocol", "2")
        self.assertGreater(len(second[0]), 15)
        self.holds(*second, "--protocol", "2")


if __name__ == "__main__":
    unittest.main()
