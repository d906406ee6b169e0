"""The frames of protocol/frames.tsv through `jentry serve`: it reads the requests, and writes the replies."""
import os
import sys

from running import Row, Runs, side_by_side, told

TOP = os.path.join(os.path.dirname(os.path.abspath(__file__)), "../..")
sys.path[:0] = [os.path.join(TOP, "protocol"), os.path.join(TOP, "examples")]
import frames
import golden

END, ENDED = b"\0\0\0\1\x08", b"\0\0\0\1\x09"
KINDS = {1: (1, 2), 2: (3,), 3: (4,), 4: (5,), 5: (5,), 6: (6, 8), 7: (7, 8), 8: (9,)}
"""The kinds of reply to each kind of request on a new stream, where no number is that of a class."""


def request(line):
    """Returns the frame of a line, whose files are named from the top."""
    kind, *words = line.split()
    if kind == "define":
        words[0] = os.path.join(TOP, words[0])
    return frames.frame(frames.request_text(kind, *words))


class Golden(Runs):
    variable = "JENTRY_PROGRAM"

    def served(self, given):
        """Returns the frames that the program writes for each of these inputs."""
        runs = side_by_side(lambda text: told(self.program, ["serve"], given=text), given)
        for run in runs:
            self.assertEqual((run.status, run.errors), (0, b""))
        return [golden.frames_of(run.output) for run in runs]

    def test_requests_are_read(self):
        rows = golden.requests()
        for row, replies in zip(rows, self.served([row.frame + END for row in rows])):
            with self.subTest(line=row.line):
                self.assertEqual((len(replies), replies[-1]), (2, ENDED))
                self.assertIn(replies[0][4], KINDS[row.frame[4]])

    def test_replies_are_written(self):
        rows = [row for row in golden.replies() if row.by]
        self.assertEqual({row.frame[4] for row in rows}, set(range(1, 10)))
        given = [b"".join(map(request, row.by.split("; "))) + END for row in rows]
        for row, replies in zip(rows, self.served(given)):
            with self.subTest(line=row.line):
                self.assertEqual(replies[-1], ENDED)
                self.assertEqual(replies[-2].hex(" "), row.frame.hex(" "))

    def test_a_request_that_is_cut_is_no_request(self):
        self.hold(
            Row(["serve"], 3, b"", "serve fault 2 Truncated\n", given=row.frame[:-1])
            for row in golden.requests()
            if len(row.frame) < 1000
        )
