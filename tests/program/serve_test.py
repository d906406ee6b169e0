"""Streams through `jentry serve`: options, replies and statuses."""
from running import Row, Runs

ROUNDS = bytes.fromhex(
    "00 00 00 11 02 00 00 00 00 00 00 00 05 00 00 00 00 00 00 00 01  00 00 00 01 08  "
    "00 00 00 09 03 00 00 00 00 00 00 00 05  00 00 00 01 08"
)
"""A put of 1 on key 5 and the end of its round, a get of it and the end of its round."""

REPLIES = bytes.fromhex("00 00 00 01 03  00 00 00 01 09  00 00 00 0a 04 01 00 00 00 00 00 00 00 01  " "00 00 00 01 09")
"""The replies to them."""

WORKERS = ["0", "1", "4", "16"]


def served(words, given, output, status=0, errors=""):
    """A run of `serve` on this input, and its result."""
    return Row(["serve", *words], status, output, errors, given=given)


class Streams(Runs):
    variable = "JENTRY_PROGRAM"

    def test_rounds_are_served(self):
        self.assertEqual((len(ROUNDS), len(REPLIES)), (44, 29))
        self.hold(
            [
                served([], ROUNDS, REPLIES),
                served(["--"], b"", b""),
                *(served(["--stripes=1", "--workers", workers], ROUNDS, REPLIES) for workers in WORKERS),
                served(["--workers=1", "--stripes", "64"], ROUNDS, REPLIES),
            ]
        )

    def test_a_cut_round_is_not_run(self):
        fault = "serve fault 2 Truncated\n"
        self.hold(
            served(["--workers", workers], ROUNDS[:end], REPLIES[:10], 3, fault)
            for workers in WORKERS
            for end in (43, 39)
        )
        self.hold(
            [
                served([], bytes([0, 0, 0, 0]), b"", 3, "serve fault 3 Malformed\n"),
                served([], bytes([0, 2, 0, 1]), b"", 3, "serve fault 1 TooLong\n"),
            ]
        )

    def test_counts_out_of_range_are_a_fault(self):
        self.hold(
            served(words, ROUNDS, b"", 3, "serve fault 7 BadCount\n")
            for words in [
                ["--workers", "17"],
                ["--stripes", "0"],
                ["--stripes=65", "--workers=1"],
                ["--workers=999999999"],
            ]
        )

    def test_other_lines_serve_nothing(self):
        self.hold(
            Row(words, 1, errors="error: bad command line\n", given=ROUNDS)
            for words in [
                ["serve", "x"],
                ["serve", "--", "x"],
                ["serve", "--workers"],
                ["serve", "--workers="],
                ["serve", "--workers=-1"],
                ["serve", "--workers", "-"],
                ["serve", "--workers=1234567890"],
                ["serve", "--workers=0000000001"],
                ["serve", "--workers", "1", "--workers", "1"],
                ["serve", "--stripes=1x"],
                ["serve", "-h"],
                ["serve", "--help"],
                ["check", "C", "--workers", "1"],
                ["run", "C", "7", "none", "--stripes=1"],
            ]
        )
