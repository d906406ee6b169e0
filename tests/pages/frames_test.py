"""protocol/frames.tsv: its frames are those of docs/PROTOCOL.md, of each kind, and the example client writes and reads them."""
import os
import sys
import tempfile
import unittest

from page import TOP, rows_of
from protocol_test import sessions

sys.path[:0] = [os.path.join(TOP, "protocol"), os.path.join(TOP, "examples")]
import frames
import golden


def words_of(row, folder):
    """Returns the words of a request's line. The file of a definition is written to a folder."""
    words = row.line.split()
    if words[0] == "define":
        words[1] = os.path.join(folder, "file")
        with open(words[1], "wb") as file:
            file.write(row.frame[5:])
    return words


class Golden(unittest.TestCase):
    def test_the_session_of_the_page_has_no_others(self):
        for side, text in zip((golden.requests(), golden.replies()), sessions()[0]):
            known = {row.frame: row.line for row in side}
            lines = [known.get(it, it.hex(" ")) for it in golden.frames_of(text)]
            self.assertGreater(len(lines), 8)
            self.assertEqual([it for it in lines if it not in known.values()], [])

    def test_each_kind_is_there(self):
        for table, side in (("requests", golden.requests()), ("replies", golden.replies())):
            self.assertEqual({row.frame[4] for row in side}, {int(row["number"]) for row in rows_of(table)}, table)
            self.assertTrue(all(len(row.frame) == 4 + int.from_bytes(row.frame[:4], "big") for row in side))
        kinds = {int(row["number"]) for row in rows_of("values")}
        arguments = [row.frame[18] for row in golden.requests() if row.frame[4] == 6 and row.frame[17] == 1]
        results = [row.frame[6] for row in golden.replies() if row.frame[4:6] == b"\6\0"]
        self.assertEqual((set(arguments), set(results)), (kinds, kinds))

    def test_each_kind_of_outcome_is_there(self):
        words = {0: "result ", 1: "threw ", 3: "threw "}
        by_kind = {row.frame[5]: row.line for row in golden.replies() if row.frame[4] == 6}
        self.assertTrue(all(line.startswith(words[kind]) for kind, line in by_kind.items()))
        in_results = {row.frame[15] for row in golden.replies() if row.frame[4] == 7 and len(row.frame) > 7}
        kinds = {int(row["number"]) for row in rows_of("outcomes")}
        self.assertEqual((set(by_kind) | {2}, in_results | {2}), (kinds, kinds))
        thrown = [row for row in golden.replies() if row.frame[4:6] == b"\6\3"]
        self.assertEqual({row.frame[6] for row in thrown}, {1, 7, 8, 9, 10})
        self.assertEqual({row.frame[7:9] == b"\0\0" for row in thrown}, {" text=" not in row.line for row in thrown})
        for row in thrown:
            self.assertEqual(row.line.partition(" text=")[2], str(int.from_bytes(row.frame[7:9], "big") or ""))

    def test_the_example_client_writes_the_requests(self):
        with tempfile.TemporaryDirectory() as folder:
            for row in golden.requests():
                with self.subTest(line=row.line):
                    self.assertEqual(frames.frame(frames.request_text(*words_of(row, folder))), row.frame)

    def test_the_example_client_reads_the_replies(self):
        for row in golden.replies():
            with self.subTest(line=row.line):
                self.assertEqual(frames.reply_line(row.frame[4:]), row.line)


if __name__ == "__main__":
    unittest.main()
