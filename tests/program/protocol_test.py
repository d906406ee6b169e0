"""Protocol 2 of `jentry serve`: its requests, and those of protocol 1 in it."""
import os

from running import Row, Runs, proved_only

TOP = os.path.dirname(os.path.dirname(os.path.dirname(os.path.abspath(__file__))))

END = bytes([0, 0, 0, 1, 8])
ENDED = bytes([0, 0, 0, 1, 9])
VERSION = bytes([0, 0, 0, 1, 9])
IS_TWO = bytes([0, 0, 0, 5, 10, 0, 0, 0, 2])
DONE = bytes([0, 0, 0, 1, 3])
UNKNOWN_CLASS = bytes([0, 0, 0, 2, 8, 1])
TOO_MANY_CLASSES = bytes([0, 0, 0, 2, 8, 4])
MALFORMED = "serve fault 3 Malformed\n"


def frame(kind, *numbers):
    """A frame of this kind with these numbers, each a value and its length in bytes."""
    body = bytes([kind]) + b"".join(value.to_bytes(size, "big") for value, size in numbers)
    return len(body).to_bytes(4, "big") + body


def define():
    with open(os.path.join(TOP, "examples/Plus.class"), "rb") as file:
        plus = file.read()
    return (1 + len(plus)).to_bytes(4, "big") + b"\1" + plus


def defined(number):
    return frame(1, (number, 4), (14, 4), (0, 4))


def forget(number):
    return frame(10, (number, 4))


def put(key, value):
    return frame(2, (key, 8), (value, 8))


def invoke(number, key):
    return frame(6, (number, 4), (key, 8), (0, 1))


def returned(value):
    return frame(6, (0, 1), (1, 1), (value, 8))


def served(protocol, given, output, status=0, errors=""):
    return Row(["serve", "--protocol", protocol], status, output, errors, given=given)


class Protocols(Runs):
    variable = "JENTRY_PROGRAM"

    def test_the_version_is_told(self):
        self.hold([served("2", VERSION + END, IS_TWO + ENDED)])

    def test_kinds_above_8_are_malformed_in_protocol_1(self):
        self.hold(served("1", given, b"", 3, MALFORMED) for given in [VERSION, forget(0), frame(11), frame(255)])
        self.hold([Row(["serve"], 3, b"", MALFORMED, given=VERSION)])

    def test_other_kinds_are_malformed_in_protocol_2(self):
        self.hold(
            served("2", given, b"", 3, MALFORMED)
            for given in [frame(0), frame(255), frame(9, (0, 1)), frame(10), frame(10, (0, 3)), frame(10, (0, 5))]
        )

    def test_requests_of_protocol_1_have_the_same_replies(self):
        given = define() + put(7, 41) + END + invoke(0, 7) + invoke(1, 7) + END
        output = defined(0) + DONE + ENDED + returned(42) + UNKNOWN_CLASS + ENDED
        self.hold(served(protocol, given, output) for protocol in ["1", "2"])

    def test_a_forgotten_class_is_unknown_and_its_number_is_not_given_again(self):
        given = define() + put(7, 41) + END + invoke(0, 7) + forget(0) + invoke(0, 7) + END
        output = defined(0) + DONE + ENDED + returned(42) + DONE + UNKNOWN_CLASS + ENDED
        self.hold(
            [
                served("2", given, output),
                served("2", given + forget(0) + define() + END, output + UNKNOWN_CLASS + defined(1) + ENDED),
                served("2", forget(0) + forget(4294967295) + END, UNKNOWN_CLASS * 2 + ENDED),
            ]
        )

    @proved_only
    def test_a_stream_holds_4096_classes_and_has_65536_numbers(self):
        full = define() * 4097 + END
        replies = b"".join(map(defined, range(4096))) + TOO_MANY_CLASSES + ENDED
        again = forget(5) + define() + define() + END
        self.hold([served("2", full + again, replies + DONE + defined(4096) + TOO_MANY_CLASSES + ENDED)])
        turns = b"".join(define() + forget(number) for number in range(65536))
        replies = b"".join(defined(number) + DONE for number in range(65536))
        self.hold([served("2", turns + define() + END, replies + TOO_MANY_CLASSES + ENDED)])

    def test_other_protocols_are_a_bad_line(self):
        self.hold(
            Row(["serve", *words], 1, errors="error: bad command line\n", given=END)
            for words in [["--protocol", "0"], ["--protocol=3"], ["--protocol="], ["--protocol", "two"], ["--protocol"]]
        )
