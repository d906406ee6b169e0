"""The commands of `jentry`: their output and statuses."""
import os
import resource
import tempfile
from functools import partial

import row_classes as rows
from running import Row, Runs, Told, told

PLUS = rows.plus()
ACCEPTED = "accepted steps=14 words=0 slots=9 depth=1\n"
ANSWER = "result 42\nvalue 42\nsteps 14 words 0\n"
NULL = "threw 3 NullPointerException\nvalue none\nsteps 4 words 0\n"
GREATEST, LEAST = "9223372036854775807", "-9223372036854775808"


def changed(at, *given):
    """Returns Plus with these bytes from offset `at` on."""
    return PLUS[:at] + bytes(given) + PLUS[at + len(given) :]


def checked(file, status, output):
    return Row(["check", "C"], status, output, file=file)


def refused(file, output):
    return checked(file, 2, output)


class Commands(Runs):
    variable = "JENTRY_PROGRAM"

    def test_plus_adds_one(self):
        run = partial(Row, file=PLUS)
        self.hold(
            [
                checked(PLUS, 0, ACCEPTED),
                run(["run", "C", "7", "41"], 0, ANSWER),
                run(["run", "C", "007", "041", "1", "2i", "null"], 0, ANSWER),
                run(["run", "C", "7", "none"], 4, NULL),
                run(["run", "C", GREATEST, GREATEST], 0, f"result {LEAST}\nvalue {LEAST}\nsteps 14 words 0\n"),
            ]
        )

    def test_straight_lines_run(self):
        unbox = rows.named("Unbox")
        self.hold(
            [
                Row(["run", "C", "7", "none"], 4, NULL, file=unbox),
                Row(["run", "C", "7", "5"], 0, "result 5\nvalue 5\nsteps 6 words 0\n", file=unbox),
                Row(
                    ["run", "C", "7", "41"],
                    4,
                    "threw 4 ClassCastException\nvalue 41\nsteps 2 words 0\n",
                    file=rows.give_entry(),
                ),
            ]
        )

    def test_classes_are_refused(self):
        for file, output in [
            (rows.named("Mixed"), "refused 22 TypeMismatch at 1\n"),
            (rows.named("Falls"), "refused 23 FallsOff\n"),
            (rows.give_entry(8190), "refused 29 FrameLimit\n"),
            (b"", "refused 2 Truncated\n"),
            (bytes(65_537), "refused 1 TooLarge\n"),
        ]:
            self.hold([refused(file, output), Row(["run", "C", "7", "none"], 2, output, file=file)])
        self.hold([checked(rows.give_entry(8189), 0, "accepted steps=2 words=0 slots=8192 depth=1\n")])

    def test_declared_frames_are_read(self):
        self.hold(
            checked(rows.plus(rows.Frames(count, bytes(entries))), 0, ACCEPTED)
            for count, entries in [
                (0, []),
                (1, [0]),
                (1, [76, 4]),
                (1, [247, 0, 12, 4]),
                (1, [252, 0, 15, 4]),
                (2, [252, 0, 15, 4, 9]),
                (2, [252, 0, 15, 4, 251, 0, 9]),
                (1, [255, 0, 17, 0, 4, 7, 0, 2, 7, 0, 16, 7, 0, 4, 4, 0, 2, 7, 0, 16, 4]),
            ]
        )

    def test_declared_frames_are_judged(self):
        operand, table = "refused 22 TypeMismatch at 16\n", "refused 21 BadStackMap\n"
        self.hold(
            refused(rows.plus(rows.Frames(count, bytes(entries))), output)
            for count, entries, output in [
                # The frame omits the long and the arguments, or its operands are in the reverse order.
                (1, [250, 0, 15], operand),
                (1, [255, 0, 17, 0, 4, 7, 0, 2, 7, 0, 16, 7, 0, 4, 4, 0, 2, 4, 7, 0, 16], operand),
                # There are too many or too few bytes for the entries, or no such entry or type exists.
                (1, [252, 0, 15, 4, 9], table),
                (2, [252, 0, 15, 4], table),
                (1, [128, 0, 15], table),
                (1, [252, 0, 15, 3], table),
                (1, [252, 0, 15, 7, 0, 1], table),
                (1, [76, 0], table),
                # No instruction begins there.
                (1, [2], table),
                (1, [251, 255, 255], table),
                (2, [252, 0, 15, 4, 8], table),
                # There are no four locals to chop, or the frame exceeds the method's limits.
                (2, [248, 0, 15, 250, 0, 0], table),
                (1, [254, 0, 15, 4, 4, 4], table),
                (1, [255, 0, 17, 0, 0, 0, 3, 4, 4, 4], table),
            ]
        )

    def test_layouts_and_shapes_are_refused(self):
        self.assertEqual(len(PLUS), 727)
        # The last 14 bytes of the header are followed by the constructor of 31, `process` of 56 and a count.
        header = len(PLUS) - 2 - 56 - 31 - 14
        self.hold(
            refused(changed(at, *given), output)
            for at, given, output in [
                (0, [0xCB, 0xFE], "refused 3 BadMagic\n"),
                (6, [0, 50], "refused 4 BadVersion\n"),
                (4, [0, 1], "refused 4 BadVersion\n"),
                (8, [0, 0], "refused 5 BadPool\n"),
                (8, [0xFF, 0xFF], "refused 5 BadPool\n"),
                (header, [0x02, 0x21], "refused 8 BadHeader\n"),
                (header + 4, [0, 6], "refused 8 BadHeader\n"),
                (header + 8, [0, 16], "refused 8 BadHeader\n"),
            ]
        )
        self.hold([refused(PLUS + b"\0", "refused 6 TrailingBytes\n")])

    def test_each_front_is_refused(self):
        self.assertEqual(len(PLUS), 727)
        self.hold(refused(PLUS[:end], "refused 2 Truncated\n") for end in range(727))

    def test_each_byte_of_the_header_is_judged(self):
        def told_of(at, byte):
            if at <= 3:
                return 2, "refused 3 BadMagic\n"
            return (0, ACCEPTED) if (at, byte) == (7, 51) else (2, "refused 4 BadVersion\n")

        own = [0xCA, 0xFE, 0xBA, 0xBE, 0, 0, 0, 52]
        self.hold(
            checked(changed(at, byte), *told_of(at, byte)) for at in range(8) for byte in range(256) if byte != own[at]
        )

    def test_long_lengths_are_refused(self):
        # These are the lengths of the Code attribute of the method `process`, and of the code in it.
        process = 727 - 2 - 56
        self.hold(
            refused(changed(at, 0xFF, 0xFF, 0xFF, 0xFF), output)
            for at, output in [(process + 10, "refused 2 Truncated\n"), (process + 18, "refused 14 BadCode\n")]
        )

    def test_a_process_without_varargs_is_accepted(self):
        self.hold([checked(rows.class_of(rows.process(4, 5, rows.PLUS, flags=0x0001)), 0, ACCEPTED)])

    def test_flags_and_codes_are_refused(self):
        process = rows.process(1, 3, rows.GIVE)
        self.hold(
            refused(rows.class_of(method), output)
            for method, output in [
                (process._replace(flags=0x0080), "refused 11 NoProcess\n"),
                (process._replace(flags=0x0089), "refused 11 NoProcess\n"),
                (process._replace(flags=0x0181), "refused 13 NoBody\n"),
                (process._replace(flags=0x0481), "refused 13 NoBody\n"),
                (process._replace(code=b""), "refused 14 BadCode\n"),
                (rows.process(1, 2, rows.GIVE), "refused 14 BadCode\n"),
                (process._replace(frames=rows.Frames(1, b"")), "refused 21 BadStackMap\n"),
            ]
        )

    def test_names_and_descriptors_are_refused(self):
        process = rows.process(1, 3, rows.GIVE)
        self.hold(
            refused(rows.class_of(*methods), output)
            for methods, output in [
                ([], "refused 11 NoProcess\n"),
                ([process, process], "refused 12 DuplicateMethod\n"),
                ([process, process._replace(descriptor=12)], "refused 7 BadDescriptor\n"),
                ([process, process._replace(name=7)], "refused 9 ConstructorForm\n"),
            ]
        )

    def test_every_tag_is_read(self):
        """A constant of each tag that Plus doesn't have, the first at index 55."""
        further = [
            rows.float_(0x7FC0_0000),
            rows.double(1),
            rows.string(1),
            rows.fieldref(2, 9),
            rows.method_handle(6, 10),
            rows.method_type(8),
            rows.invoke_dynamic(0, 9),
        ]
        plus = rows.process(4, 5, rows.PLUS)
        self.hold(
            [
                checked(rows.class_of(plus, further=further), 0, ACCEPTED),
                refused(rows.class_of(plus, further=[rows.method_handle(6, 1)]), "refused 5 BadPool\n"),
                checked(changed(6, 0, 51), 0, ACCEPTED),
                checked(changed(6, 0, 52), 0, ACCEPTED),
            ]
        )

    def test_special_methods_are_refused(self):
        plus = rows.process(4, 5, rows.PLUS)
        initialiser = plus._replace(flags=0x0008, name=55, descriptor=8, code=b"\xb1")
        constructor = rows.CONSTRUCTOR._replace(code=b"\x2a\xb7\0\x0a\0\xb1")
        catching = plus._replace(exceptions=b"\0\0\0\1\0\0\0\0")
        self.hold(
            [
                refused(
                    rows.class_of(plus, initialiser, further=[rows.utf8(b"<clinit>")]), "refused 10 ClassInitialiser\n"
                ),
                refused(rows.class_of(plus, constructor=constructor), "refused 9 ConstructorForm\n"),
                refused(rows.class_of(catching), "refused 15 ExceptionTable\n"),
            ]
        )

    def test_instructions_are_refused(self):
        self.hold(
            refused(rows.class_of(rows.process(2, 3, code)), output)
            for code, output in [
                ([0xCA], "refused 16 UnknownOpcode\n"),
                ([0xBA, 0, 0, 0, 0], "refused 17 OutsideProfile opcode 186\n"),
                ([0x2B, 0xC0, 0], "refused 18 BadOperand\n"),
                # A branch goes past the end of the code, into an instruction, or to itself.
                ([0xA7, 0, 4, 0xB0], "refused 19 BadTarget\n"),
                ([0xA7, 0, 4, 0x10, 1, 0x01, 0xB0], "refused 19 BadTarget\n"),
                ([0xA7, 0, 0], "refused 20 BackwardBranch\n"),
                # The called method isn't in the class, or is a constructor.
                ([0x0A, 0xB8, 0, 45, 0x2B, 0xB0], "refused 24 UnknownMember\n"),
                ([0x2A, 0xB7, 0, 10, 0x2B, 0xB0], "refused 24 UnknownMember\n"),
                # The instruction after a return, and the target of a branch, have no frame.
                ([0x2B, 0xB0, 0x2B, 0xB0], "refused 21 BadStackMap\n"),
                ([0xA7, 0, 3, 0x2B, 0xB0], "refused 21 BadStackMap\n"),
                ([0xB0], "refused 22 TypeMismatch at 0\n"),
                ([0x2B, 0x00], "refused 23 FallsOff\n"),
            ]
        )

    def test_lines_are_judged(self):
        line, argument = "error: bad command line\n", "error: bad argument\n"
        self.hold(
            Row(words, 1, errors=errors, file=PLUS)
            for words, errors in [
                ([], line),
                (["check"], line),
                (["check", "C", "D"], line),
                (["check", "--help"], line),
                (["check", "-h"], line),
                (["--version"], line),
                (["help"], line),
                (["--", "check", "C"], line),
                (["run", "C", "7"], line),
                (["run", "C", "-7", "1"], line),
                (["check", "C", "--workers=1"], line),
                (["run", "C", "7", "nothing"], argument),
                (["run", "C", "", "1"], argument),
                (["run", "C", "+7", "1"], argument),
                (["run", "C", "-", "1"], argument),
                (["run", "C", "--", "-7", "1"], argument),
                (["run", "C", "9223372036854775808", "1"], argument),
                (["run", "C", "7", "9223372036854775808"], argument),
                (["run", "C", "7", "1", "2147483648i"], argument),
                (["run", "C", "7", "1", "none"], argument),
                (["run", "C", "7", "1", "1", "2", "3", "4", "5", "6", "7", "8", "9"], argument),
                # The form and the values are checked before the file is read.
                (["run", "D", "7", "x"], argument),
            ]
        )

    def test_limits_of_words_pass(self):
        eight = ["2147483647i", GREATEST, "null", "1", "2", "3", "4", "5"]
        self.hold(
            [
                Row(["run", "C", "0", "0", *eight], 0, "result 1\nvalue 1\nsteps 14 words 0\n", file=PLUS),
                Row(["run", "--", "C", "7", "41"], 0, ANSWER, file=PLUS),
                Row(["check", "C", "--"], 0, ACCEPTED, file=PLUS),
            ]
        )

    def test_files_and_outputs_fail(self):
        """Files that can't be read, and outputs that are full, closed, or take ten bytes at most."""
        self.hold(Row(["check", name], 3, errors=f"error: cannot read {name}\n", file=PLUS) for name in ["D", "-", ""])
        failed = Told(3, None, b"error: cannot write\n")
        with open("/dev/full", "wb") as full:
            self.assertEqual(told(self.program, ["check", "C"], PLUS, stdout=full), failed)
        reader, writer = os.pipe()
        os.close(reader)
        with open(writer, "wb") as closed:
            self.assertEqual(told(self.program, ["check", "C"], PLUS, stdout=closed), failed)
        few = partial(resource.setrlimit, resource.RLIMIT_FSIZE, (10, 10))
        with tempfile.TemporaryFile() as short:
            # A child of Python ignores SIGXFSZ if its signals aren't restored, so the write itself fails.
            self.assertEqual(
                told(self.program, ["check", "C"], PLUS, stdout=short, restore_signals=False, preexec_fn=few), failed
            )
            short.seek(0)
            self.assertEqual(short.read(), ACCEPTED[:10].encode())

    def test_real_files_are_read_or_not(self):
        self.hold(
            [Row(["check", name], 3, errors=f"error: cannot read {name}\n") for name in [".", "no such file", ""]]
        )
        self.hold(
            [
                Row(["check", "/dev/null"], 2, "refused 2 Truncated\n"),
                Row(["check", "/dev/zero"], 2, "refused 1 TooLarge\n"),
            ]
        )
