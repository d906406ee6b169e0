"""Streams through `jentry serve --load FILE`."""
from running import Row, Runs


def long(number):
    return number.to_bytes(8, "big", signed=True)


def frame(kind, *parts):
    """Returns a frame of this kind. In these streams the end of a round follows each request."""
    body = bytes([kind]) + b"".join(parts)
    return len(body).to_bytes(4, "big") + body


REQUEST_END = frame(8)
REPLY_END = frame(9)


def asked(*requests):
    return b"".join(it + REQUEST_END for it in requests)


def told(*replies):
    return b"".join(it + REPLY_END for it in replies)


def get(key):
    return frame(3, long(key))


def contains(key):
    return frame(5, long(key))


def value(number):
    return frame(4, bytes([0]) if number is None else bytes([1]) + long(number))


def flag(holds):
    return frame(5, bytes([holds]))


def rows(pairs):
    return b"".join(long(key) + long(number) for key, number in pairs)


WORKERS = ["0", "1", "4", "16"]
BAD = "error: bad load file\n"


def loaded(file, given=b"", output=b"", status=0, errors="", words=()):
    """A run of `serve` on this input, with the file `C` as a loader, and its result."""
    return Row(["serve", *words, "--load", "C"], status, output, errors, file, given)


class Loads(Runs):
    variable = "JENTRY_PROGRAM"

    def test_a_get_of_an_absent_key_loads_it(self):
        file = bytes.fromhex("00000000000000070000000000000029")
        given = asked(contains(7), get(7), contains(7))
        output = bytes.fromhex(
            "000000020500" "0000000109" "0000000A04010000000000000029" "0000000109" "000000020501" "0000000109"
        )
        self.hold(loaded(file, given, output, words=["--workers", workers]) for workers in WORKERS)

    def test_of_equal_keys_the_last_counts(self):
        file = rows([(5, 1), (-5, -1), (5, 2), (2**63 - 1, -(2**63)), (5, 3)])
        given = asked(get(5), get(-5), get(2**63 - 1), get(6))
        output = told(value(3), value(-1), value(-(2**63)), value(None))
        self.hold(loaded(file, given, output, words=["--workers", workers]) for workers in WORKERS)

    def test_an_entry_is_not_loaded(self):
        put, removed = frame(2, long(7), long(1)), frame(4, long(7))
        given = asked(put, get(7), removed, contains(7), get(7))
        output = told(frame(3), value(1), flag(1), flag(0), value(41))
        self.hold([loaded(rows([(7, 41)]), given, output)])

    def test_other_lengths_are_bad(self):
        for length in range(34):
            given, output = asked(contains(0)), told(flag(0))
            self.hold(
                [
                    loaded(bytes(length), given, output)
                    if length % 16 == 0
                    else loaded(bytes(length), given, b"", 1, BAD)
                ]
            )

    def test_a_long_file_is_read(self):
        count = 655_360
        file = rows((key, 3 * key) for key in range(count, 0, -1))
        self.assertEqual(len(file), 10_485_760)
        given = asked(get(1), get(count // 2), get(count), get(count + 1))
        output = told(value(3), value(3 * (count // 2)), value(3 * count), value(None))
        self.hold([loaded(file, given, output), loaded(file + b"0", given, b"", 1, BAD)])

    def test_an_endless_file_is_bad(self):
        self.hold([Row(["serve", "--load", "/dev/zero"], 1, b"", BAD, given=asked(get(1)))])

    def test_a_file_that_can_not_be_read_is_told(self):
        self.hold(
            Row(["serve", f"--load={name}"], 3, b"", f"error: cannot read {name}\n", given=asked(get(1)))
            for name in ["absent", ".", "C/C"]
        )

    def test_the_file_is_judged_before_the_counts(self):
        many = ["--workers", "17", "--stripes=65"]
        self.hold(
            [
                loaded(bytes(3), asked(get(1)), b"", 1, BAD, many),
                loaded(bytes(16), asked(get(1)), b"", 3, "serve fault 7 BadCount\n", many),
                Row(["serve", *many, "--load", "absent"], 3, b"", "error: cannot read absent\n"),
            ]
        )

    def test_lines_of_another_form_load_nothing(self):
        self.hold(
            Row(words, 1, errors="error: bad command line\n", given=asked(get(1)))
            for words in [
                ["serve", "--load"],
                ["serve", "--load", "C", "--load", "C"],
                ["serve", "--load", "C", "C"],
                ["serve", "--load", "absent", "--workers", "x"],
                ["check", "C", "--load", "C"],
            ]
        )
