"""Booleans as arguments and results: classes that name the type, words of the command line, and frames of `serve`."""
import os
import struct

import row_classes as rows
from running import Row, Runs, told
from streams_test import ENDED, ROUND_END, define

HERE = os.path.dirname(os.path.abspath(__file__))
EXAMPLES = os.path.join(HERE, "../../examples")


def class_file(name, folder=os.path.join(HERE, "classes")):
    with open(os.path.join(folder, name + ".class"), "rb") as it:
        return it.read()


RESERVE = class_file("Reserve", EXAMPLES)
BY_REFUSAL = [
    (7, "BooleanResult", "accepted steps=9 words=0 slots=10 depth=2\n"),
    (24, "BoxesBoolean", "accepted steps=14 words=0 slots=6 depth=1\n"),
    (21, "DeclaredBoolean", "accepted steps=9 words=0 slots=5 depth=1\n"),
    (7, "VoidResult", "accepted steps=9 words=0 slots=10 depth=2\n"),
    (24, "CastsVoid", "accepted steps=5 words=0 slots=5 depth=1\n"),
]
"""Classes that javac made, and what `check` prints for each. The second profile refuses them by these numbers: a descriptor, a member or a cast, or a
stack map names Boolean or Void."""
RAN = [
    ("BooleanResult", "none", 0, "result false\nvalue none\nsteps 9 words 0\n"),
    ("BooleanResult", "5", 0, "result true\nvalue 5\nsteps 9 words 0\n"),
    ("BoxesBoolean", "none false", 0, "result true\nvalue none\nsteps 14 words 0\n"),
    ("BoxesBoolean", "none true", 0, "result false\nvalue none\nsteps 13 words 0\n"),
    ("BoxesBoolean", "5 false", 0, "result false\nvalue 5\nsteps 13 words 0\n"),
    ("BoxesBoolean", "5 true", 0, "result true\nvalue 5\nsteps 14 words 0\n"),
    ("BoxesBoolean", "5 null", 4, "threw 3 NullPointerException\nvalue 5\nsteps 5 words 0\n"),
    ("BoxesBoolean", "5 1", 4, "threw 4 ClassCastException\nvalue 5\nsteps 4 words 0\n"),
    ("BoxesBoolean", "5 1i", 4, "threw 4 ClassCastException\nvalue 5\nsteps 4 words 0\n"),
    ("BoxesBoolean", "5", 4, "threw 2 ArrayIndexOutOfBoundsException\nvalue 5\nsteps 3 words 0\n"),
    ("DeclaredBoolean", "5", 0, "result null\nvalue none\nsteps 9 words 0\n"),
    ("VoidResult", "5", 0, "result null\nvalue none\nsteps 9 words 0\n"),
    ("CastsVoid", "5 null", 0, "result null\nvalue 5\nsteps 5 words 0\n"),
    ("CastsVoid", "5 true", 4, "threw 4 ClassCastException\nvalue 5\nsteps 4 words 0\n"),
    ("CastsVoid", "5 5", 4, "threw 4 ClassCastException\nvalue 5\nsteps 4 words 0\n"),
]
"""What a run of a class on key 7 prints, with the words after the key and its status."""


def first_argument():
    """A class that returns its first argument."""
    return rows.class_of(rows.main(2, 3, "2c0332b0"))


def with_library(code, *members, **other):
    """A class whose code may call these methods, each by its class, name and descriptor. The n-th one has the index `member(n)`."""
    further = []
    for of, name, descriptor in members:
        at = rows.FURTHER + len(further)
        further += [rows.utf8(of), rows.class_(at), rows.utf8(name), rows.utf8(descriptor)]
        further += [rows.name_and_type(at + 2, at + 3), rows.methodref(at + 1, at + 4)]
    return rows.class_of(rows.main(2, 3, code, **other), further=further)


def member(number):
    return "%04x" % (rows.FURTHER + 6 * number + 5)


def type_of(number):
    return "%04x" % (rows.FURTHER + 6 * number + 1)


VALUE_OF = (b"java/lang/Boolean", b"valueOf", b"(Z)Ljava/lang/Boolean;")
BOOLEAN_VALUE = (b"java/lang/Boolean", b"booleanValue", b"()Z")


def invoke(number, key, arguments):
    text = struct.pack(">BIq", 6, number, key) + arguments
    return struct.pack(">I", len(text)) + text


def reply(text):
    return struct.pack(">I", len(text)) + text


class Booleans(Runs):
    variable = "JENTRY_PROGRAM"

    def test_classes_that_the_second_profile_refuses_are_accepted(self):
        self.hold(Row(["check", "C"], 0, output, file=class_file(name)) for _, name, output in BY_REFUSAL)

    def test_runs_are_told(self):
        self.hold(
            Row(["run", "C", "7", *words.split()], status, output, file=class_file(name))
            for name, words, status, output in RAN
        )

    def test_true_and_false_are_arguments(self):
        self.hold(
            Row(
                ["run", "C", "7", "1", word, "2"],
                0,
                f"result {word}\nvalue 1\nsteps 4 words 0\n",
                file=first_argument(),
            )
            for word in ("true", "false", "null", "5", "5i")
        )
        self.hold(
            Row(["run", "C", "7", "1", word], 1, errors="error: bad argument\n", file=first_argument())
            for word in ("True", "FALSE", "truei", "true1", "tru", "", " true")
        )
        self.hold(
            Row(["run", "C", *words], 1, errors="error: bad argument\n", file=first_argument())
            for words in (["true", "1", "1"], ["7", "false", "1"])
        )

    def test_an_int_is_boxed_as_true_if_it_is_not_0(self):
        for push, word in [("03", "false"), ("04", "true"), ("05", "true"), ("02", "true"), ("114000", "true")]:
            with self.subTest(push=push):
                file = with_library(push + "b8" + member(0) + "b0", VALUE_OF)
                self.assertEqual(told(self.program, ["run", "C", "7", "1"], file).output.split()[1].decode(), word)

    def test_a_boolean_is_an_object_and_no_number(self):
        casts = ["0004", type_of(0), "0012"]
        for cast, passes in zip(casts, (True, True, False)):
            with self.subTest(cast=cast):
                file = with_library("2c0332c0" + cast + "b0", BOOLEAN_VALUE)
                output = told(self.program, ["run", "C", "7", "1", "true"], file).output.split(b"\n")[0]
                self.assertEqual(output, b"result true" if passes else b"threw 4 ClassCastException")
        unboxed = with_library("2c0332b6" + member(0) + "85b80029b0", BOOLEAN_VALUE)
        self.hold([Row(["check", "C"], 2, "refused 22 TypeMismatch at 3\n", file=unboxed)])
        taken = with_library("2bb9001a0100c0" + type_of(0) + "b0", BOOLEAN_VALUE)
        output = "threw 4 ClassCastException\nvalue 1\nsteps 3 words 0\n"
        self.hold([Row(["run", "C", "7", "1"], 4, output, file=taken)])

    def test_a_boolean_is_no_value_of_an_entry(self):
        sets = rows.class_of(rows.main(3, 3, "2b2c0332b9001e020001b0"))
        output = "threw 4 ClassCastException\nvalue 1\nsteps 5 words 0\n"
        self.hold([Row(["run", "C", "7", "1", "true"], 4, output, file=sets)])

    def test_members_of_boolean_that_are_not_known(self):
        for name, descriptor in [
            (b"equals", b"(Ljava/lang/Object;)Z"),
            (b"hashCode", b"()I"),
            (b"booleanValue", b"()J"),
        ]:
            file = with_library(
                "2c0332c0" + type_of(0) + "b6" + member(0) + "5701b0", (b"java/lang/Boolean", name, descriptor)
            )
            with self.subTest(name=name):
                self.assertEqual(told(self.program, ["check", "C"], file).output, b"refused 24 UnknownMember\n")

    def test_explain_names_the_type(self):
        lines = told(self.program, ["explain", "C"], RESERVE).output.decode().split("\n")
        self.assertEqual(lines[1], "method Boolean process(MutableEntry, Object...) steps=47 words=0 slots=12 depth=1")
        wrong = with_library("2c0332c0" + type_of(0) + "b80029b0", VALUE_OF)
        lines = told(self.program, ["explain", "C"], wrong).output.decode().split("\n")
        self.assertEqual(lines[0], "refused 22 TypeMismatch at 6")
        self.assertIn("operands Boolean", lines)

    def test_frames_have_two_kinds_for_them(self):
        given = define(RESERVE) + define(first_argument()) + ROUND_END
        given += bytes([0, 0, 0, 17, 2]) + struct.pack(">qq", 7, 41) + ROUND_END
        forty = b"\1" + struct.pack(">q", 40)
        given += invoke(0, 7, b"\2" + forty + b"\4") + invoke(1, 8, b"\3\3\4\0") + ROUND_END
        given += invoke(0, 7, b"\2" + forty + b"\3") + invoke(1, 8, b"\1\4") + ROUND_END
        given += invoke(0, 7, b"\1" + forty) + ROUND_END
        keys = struct.pack(">IH3q", 0, 3, 7, 8, 9)
        given += reply(b"\7" + keys + b"\1" + forty) + ROUND_END
        wanted = reply(struct.pack(">BIII", 1, 0, 52, 0)) + reply(struct.pack(">BIII", 1, 1, 4, 0)) + ENDED
        wanted += reply(b"\3") + ENDED
        wanted += reply(b"\6\0\4") + reply(b"\6\0\3") + ENDED
        wanted += reply(b"\6\0\4") + reply(b"\6\0\4") + ENDED
        wanted += reply(b"\6\0\3") + ENDED
        wanted += reply(b"\7\0\1" + struct.pack(">q", 7) + b"\0\3") + ENDED
        self.hold(Row(["serve", "--workers", count], 0, wanted, given=given) for count in ("0", "4"))

    def test_other_kinds_are_malformed(self):
        self.hold(
            Row(["serve"], 3, b"", "serve fault 3 Malformed\n", given=invoke(0, 7, b"\1" + kind) + ROUND_END)
            for kind in (b"\5", b"\xff", b"\3\0", b"\4\1")
        )
