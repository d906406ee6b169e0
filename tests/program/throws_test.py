"""Exceptions that a class throws itself, and the two constants of Boolean: verdicts, runs, and frames of `serve`."""
import os
import struct

import row_classes as rows
from booleans_test import EXAMPLES, class_file, invoke, reply
from running import Row, Runs
from streams_test import ENDED, ROUND_END, define

THROWN, WITHDRAW = class_file("Thrown"), class_file("Withdraw", EXAMPLES)
NAMES = {
    1: "ArithmeticException",
    7: "EntryProcessorException",
    8: "IllegalArgumentException",
    9: "IllegalStateException",
    10: "UnsupportedOperationException",
}
"""The exceptions that a class may throw."""
TEXTS = {1: 48, 7: 53, 8: 56, 9: 59, 10: 62}
"""The indexes of their texts in Thrown."""
STATE = b"java/lang/IllegalStateException"
CLASS, WITH_TEXT, TEXT, WITHOUT, NUMBER = (rows.FURTHER + at for at in (1, 4, 6, 7, 8))
"""The indexes of the exception's class, its two constructors, a text, and an Integer."""


def constants(name=STATE, member=b"<init>", descriptor=b"(Ljava/lang/String;)V", of=0):
    """Returns the constants for a throw of this class. `of` is the index of the class whose constructors are called, by default the same."""
    at = rows.FURTHER
    found = [rows.utf8(name), rows.class_(at), rows.utf8(descriptor), rows.name_and_type(at + 9, at + 2)]
    found += [rows.methodref(of or at + 1, at + 3), rows.utf8(b"no such entry"), rows.string(at + 5)]
    return found + [
        rows.methodref(of or at + 1, at + 10),
        rows.integer(5),
        rows.utf8(member),
        rows.name_and_type(at + 9, 8),
    ]


def form(text=TEXT, maker=None, wide=False):
    """Returns the instructions of a throw, with the text at an index, or without one."""
    pushed = b"" if text is None else b"\x13" + rows.u2(text) if wide else bytes([0x12, text])
    maker = maker or (WITHOUT if text is None else WITH_TEXT)
    return b"\xbb" + rows.u2(CLASS) + b"\x59" + pushed + b"\xb7" + rows.u2(maker) + b"\xbf"


def throwing(code, max_stack=3, frames=None, further=None):
    """A class whose `process` has this code."""
    method = rows.process(max_stack, 3, code, frames)
    return rows.class_of(method, further=constants() if further is None else further)


def verdict(file, output):
    return Row(["check", "C"], 0 if output.startswith("accepted") else 2, output + "\n", file=file)


def threw(number, value, steps):
    return f"threw {number} {NAMES[number]}\nvalue {value}\nsteps {steps} words 0\n"


def thrown(number, text):
    """Returns the outcome of an exception that a class throws itself."""
    return struct.pack(">BBH", 3, number, text)


OUTSIDE = "refused 17 OutsideProfile opcode 187"


class Throws(Runs):
    variable = "JENTRY_PROGRAM"

    def test_each_exception_keeps_the_value(self):
        """Thrown sets the value first. With a second argument a method that it calls throws."""
        self.hold(
            Row(["run", "C", "7", "41", f"{number}i", *more], 4, threw(number, 41, steps), file=THROWN)
            for number in NAMES
            for more, steps in (([], 17), (["true"], 19))
        )
        self.hold(
            [
                Row(["run", "C", "7", "none", "9i"], 4, threw(9, "none", 17), file=THROWN),
                Row(["run", "C", "7", "41", "3i"], 0, "result null\nvalue 99\nsteps 18 words 0\n", file=THROWN),
                verdict(THROWN, "accepted steps=21 words=0 slots=11 depth=2"),
            ]
        )

    def test_an_example_withdraws(self):
        self.hold(
            [
                Row(["run", "C", "7", "100", "30"], 0, "result 70\nvalue 70\nsteps 37 words 0\n", file=WITHDRAW),
                Row(["run", "C", "7", "100", "101"], 4, threw(9, 100, 30), file=WITHDRAW),
                Row(["run", "C", "7", "none", "1"], 4, threw(9, "none", 26), file=WITHDRAW),
                Row(["run", "C", "7", "100", "0"], 4, threw(8, 100, 15), file=WITHDRAW),
                verdict(WITHDRAW, "accepted steps=37 words=0 slots=17 depth=2"),
            ]
        )

    def test_a_throw_is_one_step_and_needs_room_for_its_operands(self):
        accepted, no_room = "accepted steps=1 words=0 slots=%d depth=1", "refused 22 TypeMismatch at 0"
        self.hold(
            verdict(throwing(code, max_stack), output)
            for code, max_stack, output in [
                (form(), 3, accepted % 6),
                (form(), 2, no_room),
                (form(None), 2, accepted % 5),
                (form(None), 1, no_room),
                (form(wide=True), 3, accepted % 6),
                # No instruction follows it, so one behind it needs a frame.
                (form() + b"\x01\xb0", 3, "refused 21 BadStackMap"),
            ]
        )
        self.hold([Row(["run", "C", "7", "5"], 4, threw(9, 5, 1), file=throwing(form()))])

    def test_a_text_at_an_index_above_255(self):
        further = constants() + 300 * [rows.integer(1)]
        text = rows.FURTHER + len(further) + 1
        file = throwing(form(text, wide=True), further=further + [rows.utf8(b"far away"), rows.string(text - 1)])
        self.assertGreater(text, 255)
        self.hold(
            [
                Row(["run", "C", "7", "5"], 4, threw(9, 5, 1), file=file),
                Row(
                    ["serve"],
                    0,
                    reply(struct.pack(">BIII", 1, 0, 1, 0)) + reply(b"\6" + thrown(9, text)) + ENDED,
                    given=define(file) + invoke(0, 7, b"\0") + ROUND_END,
                ),
            ]
        )

    def test_branches_to_a_throw_and_into_it(self):
        """The code is a branch over two instructions to a throw, or into one."""

        def class_with(offset):
            code = b"\x03\x99" + rows.u2(offset) + b"\x01\xb0" + form()
            return throwing(code, frames=rows.Frames(1, bytes([6])))

        self.hold(
            [
                verdict(class_with(5), "accepted steps=4 words=0 slots=6 depth=1"),
                Row(["run", "C", "7", "5"], 4, threw(9, 5, 3), file=class_with(5)),
                # Behind new, dup, ldc and invokespecial, and at an operand.
                *(verdict(class_with(5 + at), "refused 19 BadTarget") for at in (1, 3, 4, 6, 9)),
                # Behind the code.
                verdict(class_with(5 + len(form())), "refused 19 BadTarget"),
            ]
        )
        # Frames at dup, ldc, invokespecial and athrow.
        self.hold(
            verdict(throwing(form(), frames=rows.Frames(1, bytes([at]))), "refused 21 BadStackMap")
            for at in (3, 4, 6, 9)
        )

    def test_other_forms_are_outside_the_profile(self):
        self.hold(
            verdict(throwing(code), OUTSIDE)
            for code in [
                # The constructor isn't that of the form, or the text is no String.
                form(maker=WITHOUT),
                form(None, maker=WITH_TEXT),
                form(text=NUMBER),
                form(text=rows.FURTHER),
                form(maker=10),
                # The exception is returned, made by one more instruction, or not kept twice.
                form()[:-1] + b"\xb0",
                form()[:4] + b"\0" + form()[4:],
                form()[:3] + b"\0" + form()[4:],
            ]
        )
        self.hold(
            [
                verdict(throwing(b"\x01\xbf"), "refused 17 OutsideProfile opcode 191"),
                verdict(throwing(bytes([0x12, TEXT, 0xB0])), "refused 17 OutsideProfile opcode 18"),
                verdict(throwing(b"\x13" + rows.u2(TEXT) + b"\xb0"), "refused 17 OutsideProfile opcode 19"),
                verdict(class_file("Throws", os.path.join(EXAMPLES, "refused")), OUTSIDE),
                verdict(class_file("MakesObject", os.path.join(EXAMPLES, "refused")), OUTSIDE),
            ]
        )

    def test_other_classes_and_constructors_are_outside_the_profile(self):
        self.hold(
            verdict(throwing(form(), further=constants(**other)), OUTSIDE)
            for other in [
                {"name": b"java/lang/RuntimeException"},
                {"name": b"java/lang/IllegalStateExceptio"},
                {"name": b"java/lang/ArrayIndexOutOfBoundsException"},
                {"name": b"javax/cache/integration/CacheLoaderException"},
                {"name": b"java/lang/Long"},
                {"descriptor": b"(Ljava/lang/Object;)V"},
                {"descriptor": b"(Ljava/lang/String;Ljava/lang/Throwable;)V"},
                {"member": b"<inix>"},
                {"of": 4},
            ]
        )

    def test_a_class_named_as_its_exception_knows_no_such_member(self):
        file = throwing(form())
        own = b"\1\0\3Row"
        self.assertEqual(file.count(own), 1)
        self.hold([verdict(file.replace(own, rows.utf8(STATE)), "refused 24 UnknownMember")])

    def test_frames_have_a_kind_of_outcome_for_them(self):
        """Division by zero keeps its kind beside the class's own ArithmeticException."""
        given = define(THROWN) + define(rows.named("Ratio")) + ROUND_END
        given += reply(struct.pack(">Bqq", 2, 7, 0)) + ROUND_END
        wanted = reply(struct.pack(">BIII", 1, 0, 21, 0)) + reply(struct.pack(">BIII", 1, 1, 14, 0)) + ENDED
        wanted += reply(b"\3") + ENDED
        for number, text in TEXTS.items():
            one = b"\2" + struct.pack(">i", number)
            given += invoke(0, 7, b"\1" + one) + invoke(0, 7, b"\2" + one + b"\4")
            wanted += reply(b"\6" + thrown(number, 0)) + reply(b"\6" + thrown(number, text))
        given += invoke(1, 7, b"\0") + ROUND_END + reply(struct.pack(">Bq", 3, 7)) + ROUND_END
        wanted += reply(b"\6\1\1") + ENDED + reply(struct.pack(">BBq", 4, 1, 0)) + ENDED
        self.hold(Row(["serve", "--workers", count], 0, wanted, given=given) for count in ("0", "4"))

    def test_results_have_it_beside_others(self):
        keys = struct.pack(">IH4q", 0, 4, 9, 7, 8, -1)
        given = define(WITHDRAW) + b"".join(reply(struct.pack(">Bqq", 2, key, 10 * key)) for key in (7, 8, 9))
        given += ROUND_END + reply(b"\7" + keys + b"\1\1" + struct.pack(">q", 80)) + ROUND_END
        given += reply(struct.pack(">Bq", 3, 7)) + reply(struct.pack(">Bq", 5, -1)) + ROUND_END
        outcomes = (
            (9, b"\0\1" + struct.pack(">q", 10)),
            (7, thrown(9, 32)),
            (8, b"\0\1" + bytes(8)),
            (-1, thrown(9, 32)),
        )
        wanted = reply(struct.pack(">BIII", 1, 0, 37, 0)) + 3 * reply(b"\3") + ENDED
        wanted += reply(b"\7\0\4" + b"".join(struct.pack(">q", key) + text for key, text in outcomes)) + ENDED
        wanted += reply(struct.pack(">BBq", 4, 1, 70)) + reply(b"\5\0") + ENDED
        self.hold(Row(["serve", "--workers", count], 0, wanted, given=given) for count in ("0", "4"))


class BooleanConstants(Runs):
    variable = "JENTRY_PROGRAM"

    @staticmethod
    def field(of, name, descriptor):
        """A class that returns a static field."""
        at = rows.FURTHER
        further = [rows.utf8(of), rows.class_(at), rows.utf8(name), rows.utf8(descriptor)]
        further += [rows.name_and_type(at + 2, at + 3), rows.fieldref(at + 1, at + 4)]
        return throwing(b"\xb2" + rows.u2(at + 5) + b"\xb0", 1, further=further)

    def test_true_and_false(self):
        for name in (b"TRUE", b"FALSE"):
            file = self.field(b"java/lang/Boolean", name, b"Ljava/lang/Boolean;")
            output = f"result {name.decode().lower()}\nvalue 5\nsteps 2 words 0\n"
            self.hold(
                [
                    verdict(file, "accepted steps=2 words=0 slots=4 depth=1"),
                    Row(["run", "C", "7", "5"], 0, output, file=file),
                ]
            )

    def test_other_fields_are_outside_the_profile(self):
        self.hold(
            verdict(self.field(*other), "refused 17 OutsideProfile opcode 178")
            for other in [
                (b"java/lang/Boolean", b"TYPE", b"Ljava/lang/Class;"),
                (b"java/lang/Boolean", b"TRUE", b"Z"),
                (b"java/lang/Boolean", b"True", b"Ljava/lang/Boolean;"),
                (b"java/lang/System", b"out", b"Ljava/io/PrintStream;"),
                (b"Row", b"TRUE", b"Ljava/lang/Boolean;"),
            ]
        )
        self.hold(
            verdict(class_file(name, os.path.join(EXAMPLES, "refused")), "refused 17 OutsideProfile opcode 178")
            for name in ("Prints", "StaticCounter", "SwitchOfEnum")
        )
