"""Commands of `jentry` on the row classes: their verdicts, bounds and runs."""
import row_classes as rows
from running import Row, Runs

CHECKED = [
    ("Counter", 0, "accepted steps=24 words=0 slots=11 depth=1\n"),
    ("NestFault", 0, "accepted steps=13 words=0 slots=12 depth=2\n"),
    ("Unbox", 0, "accepted steps=6 words=0 slots=5 depth=1\n"),
    ("SetRemove", 0, "accepted steps=21 words=0 slots=7 depth=1\n"),
    ("DivLeast", 0, "accepted steps=6 words=0 slots=7 depth=1\n"),
    ("RemLeast", 0, "accepted steps=6 words=0 slots=7 depth=1\n"),
    ("Shift64", 0, "accepted steps=5 words=0 slots=6 depth=1\n"),
    ("ShiftNeg", 0, "accepted steps=5 words=0 slots=6 depth=1\n"),
    ("Loose", 0, "accepted steps=5 words=0 slots=5 depth=1\n"),
    ("SelfGoto", 2, "refused 20 BackwardBranch\n"),
    ("Circle", 2, "refused 25 Recursive\n"),
    ("ArrJoin", 2, "refused 26 LengthNotConstant\n"),
    ("ArrVar", 2, "refused 26 LengthNotConstant\n"),
    ("ArrZero", 0, "accepted steps=6 words=1 slots=5 depth=1\n"),
    ("ArrMost", 0, "accepted steps=6 words=65536 slots=5 depth=1\n"),
    ("ArrOver", 2, "refused 28 WordLimit\n"),
    ("Ratio", 0, "accepted steps=14 words=0 slots=9 depth=1\n"),
    ("GiveEntry", 0, "accepted steps=2 words=0 slots=4 depth=1\n"),
    ("Bridge", 0, "accepted steps=8 words=0 slots=11 depth=2\n"),
    ("FallIn", 2, "refused 22 TypeMismatch at 7\n"),
    ("FallOk", 0, "accepted steps=8 words=0 slots=7 depth=1\n"),
    ("Split", 2, "refused 22 TypeMismatch at 2\n"),
    ("CallArr", 0, "accepted steps=9 words=65536 slots=9 depth=2\n"),
    ("CallTwice", 2, "refused 28 WordLimit\n"),
    ("Table", 0, "accepted steps=9 words=0 slots=5 depth=1\n"),
    ("TableLong", 0, "accepted steps=10 words=0 slots=5 depth=1\n"),
    ("Look", 0, "accepted steps=9 words=0 slots=5 depth=1\n"),
    ("LookLong", 0, "accepted steps=11 words=0 slots=5 depth=1\n"),
    ("Far", 0, "accepted steps=5 words=0 slots=260 depth=1\n"),
    ("Inc", 0, "accepted steps=7 words=0 slots=6 depth=1\n"),
    ("Jump", 0, "accepted steps=3 words=0 slots=4 depth=1\n"),
]
"""What `check` prints for a class, with its status."""

RAN = [
    ("Counter", "41 1", 0, "result 42\nvalue 42\nsteps 24 words 0\n"),
    ("Counter", "none 1", 0, "result 1\nvalue 1\nsteps 20 words 0\n"),
    ("Counter", "41", 4, "threw 2 ArrayIndexOutOfBoundsException\nvalue 41\nsteps 13 words 0\n"),
    ("Counter", "41 1i", 4, "threw 4 ClassCastException\nvalue 41\nsteps 14 words 0\n"),
    (
        "Counter",
        "9223372036854775807 1",
        0,
        "result -9223372036854775808\nvalue -9223372036854775808\nsteps 24 words 0\n",
    ),
    ("NestFault", "41", 4, "threw 1 ArithmeticException\nvalue 41\nsteps 10 words 0\n"),
    ("SetRemove", "none", 0, "result 2\nvalue none\nsteps 21 words 0\n"),
    ("SetRemove", "5", 0, "result 3\nvalue none\nsteps 21 words 0\n"),
    ("DivLeast", "none", 0, "result -9223372036854775808\nvalue none\nsteps 6 words 0\n"),
    ("RemLeast", "none", 0, "result 0\nvalue none\nsteps 6 words 0\n"),
    ("Shift64", "none", 0, "result 1\nvalue none\nsteps 5 words 0\n"),
    ("ShiftNeg", "none", 0, "result -9223372036854775808\nvalue none\nsteps 5 words 0\n"),
    ("Bridge", "none", 0, "result 1\nvalue none\nsteps 8 words 0\n"),
    ("Loose", "none 4", 4, "threw 5 IncompatibleClassChangeError\nvalue none\nsteps 4 words 0\n"),
    ("Loose", "none null", 4, "threw 3 NullPointerException\nvalue none\nsteps 4 words 0\n"),
    ("Loose", "none", 4, "threw 2 ArrayIndexOutOfBoundsException\nvalue none\nsteps 3 words 0\n"),
    ("ArrZero", "none", 0, "result 0\nvalue none\nsteps 6 words 1\n"),
    ("ArrMost", "none", 0, "result 65535\nvalue none\nsteps 6 words 65536\n"),
    ("CallArr", "none", 0, "result 65535\nvalue none\nsteps 9 words 65536\n"),
    ("Ratio", "2", 0, "result 0\nvalue 2\nsteps 14 words 0\n"),
    ("Ratio", "1", 0, "result null\nvalue 1\nsteps 11 words 0\n"),
    ("Ratio", "0", 4, "threw 1 ArithmeticException\nvalue 0\nsteps 12 words 0\n"),
    ("FallOk", "none", 0, "result null\nvalue none\nsteps 6 words 0\n"),
    ("Unbox", "none", 4, "threw 3 NullPointerException\nvalue none\nsteps 4 words 0\n"),
    ("Unbox", "5", 0, "result 5\nvalue 5\nsteps 6 words 0\n"),
    ("GiveEntry", "41", 4, "threw 4 ClassCastException\nvalue 41\nsteps 2 words 0\n"),
    ("Table", "1", 0, "result 1\nvalue 1\nsteps 9 words 0\n"),
    ("Table", "2", 0, "result null\nvalue 2\nsteps 8 words 0\n"),
    ("Table", "3", 0, "result 0\nvalue 3\nsteps 9 words 0\n"),
    ("Table", "0", 0, "result 0\nvalue 0\nsteps 9 words 0\n"),
    ("Table", "4294967297", 0, "result 1\nvalue 4294967297\nsteps 9 words 0\n"),
    ("Table", "2147483648", 0, "result 0\nvalue 2147483648\nsteps 9 words 0\n"),
    ("TableLong", "3", 0, "result 0\nvalue 3\nsteps 10 words 0\n"),
    ("Look", "4294967291", 0, "result 1\nvalue 4294967291\nsteps 9 words 0\n"),
    ("Look", "9", 0, "result null\nvalue 9\nsteps 8 words 0\n"),
    ("Look", "5", 0, "result 0\nvalue 5\nsteps 9 words 0\n"),
    ("Look", "10", 0, "result 0\nvalue 10\nsteps 9 words 0\n"),
    ("LookLong", "9", 0, "result null\nvalue 9\nsteps 11 words 0\n"),
    ("Far", "none", 0, "result 1\nvalue none\nsteps 5 words 0\n"),
    ("Inc", "none", 0, "result -301\nvalue none\nsteps 7 words 0\n"),
    ("Jump", "none", 0, "result null\nvalue none\nsteps 3 words 0\n"),
]
"""What a run of a class on key 7 prints, with the words after the key and its status."""


def check_tells(file, status, output):
    return Row(["check", "C"], status, output, file=file)


class Classes(Runs):
    variable = "JENTRY_PROGRAM"

    def test_verdicts_are_told(self):
        self.assertEqual(len(CHECKED), 31)
        self.hold(check_tells(rows.named(name), status, output) for name, status, output in CHECKED)

    def test_runs_are_told(self):
        self.assertEqual(len(RAN), 41)
        self.hold(
            Row(["run", "C", "7", *words.split()], status, output, file=rows.named(name))
            for name, words, status, output in RAN
        )

    def test_switches_and_wide_forms_are_judged(self):
        def other(name, old, new):
            method = rows.CLASSES[name][0]
            return rows.class_of(method._replace(code=method.code.replace(bytes.fromhex(old), bytes.fromhex(new), 1)))

        self.hold(
            check_tells(data, 2 if told.startswith("refused") else 0, told + "\n")
            for data, told in [
                (other("Table", "aa0000", "aaffff"), "accepted steps=9 words=0 slots=5 depth=1"),
                (other("Table", "0000000100000002", "0000000300000002"), "refused 18 BadOperand"),
                (other("Table", "0000001e", "00000000"), "refused 20 BackwardBranch"),
                (other("Table", "0000001c0a", "000000190a"), "refused 19 BadTarget"),
                (other("Table", "0000001c0a", "0000001d0a"), "refused 21 BadStackMap"),
                (other("Look", "fffffffb0000001b00000009", "000000090000001bfffffffb"), "refused 18 BadOperand"),
                (other("Look", "00000009", "fffffffb"), "refused 18 BadOperand"),
                (other("Look", "00000002", "ffffffff"), "refused 18 BadOperand"),
                (rows.class_of(rows.CLASSES["Far"][0]._replace(max_locals=257)), "refused 22 TypeMismatch at 1"),
                (other("Jump", "c800000005", "c800000000"), "refused 20 BackwardBranch"),
            ]
        )

    def test_frames_are_judged(self):
        self.hold(
            check_tells(rows.class_of(rows.process(4, 5, rows.RATIO, frames)), 2, output)
            for frames, output in [
                (None, "refused 21 BadStackMap\n"),
                (rows.Frames(1, bytes([0xFC, 0, 0x14, 4])), "refused 21 BadStackMap\n"),
                (rows.Frames(1, bytes([0xFC, 0, 0x15, 1])), "refused 22 TypeMismatch at 16\n"),
            ]
        )

    def test_a_frame_may_stand_at_the_start(self):
        def class_with(local):
            entries = bytes([0xFF, 0, 0, 0, 2, local, 7, 0, 0x10, 0, 0])
            return rows.class_of(rows.process(1, 3, rows.GIVE, rows.Frames(1, entries)))

        self.hold(
            [
                check_tells(class_with(0), 0, "accepted steps=2 words=0 slots=4 depth=1\n"),
                check_tells(class_with(1), 2, "refused 22 TypeMismatch at 0\n"),
            ]
        )

    def test_calls_are_counted(self):
        self.hold(
            check_tells(rows.line_of(count, calls), status, output)
            for count, calls, status, output in [
                (18, 2, 0, "accepted steps=524288 words=0 slots=4 depth=19\n"),
                (19, 2, 0, "accepted steps=1048576 words=0 slots=4 depth=20\n"),
                (20, 2, 0, "accepted steps=2097152 words=0 slots=4 depth=21\n"),
                (21, 2, 2, "refused 27 StepLimit\n"),
                (60, 2, 2, "refused 27 StepLimit\n"),
                (63, 1, 0, "accepted steps=128 words=0 slots=4 depth=64\n"),
                (64, 1, 2, "refused 29 FrameLimit\n"),
            ]
        )
        output = "result null\nvalue none\nsteps 524288 words 0\n"
        self.hold([Row(["run", "C", "7", "none"], 0, output, file=rows.line_of(18, 2))])

    def test_branches_are_counted(self):
        diamond = rows.diamond(8000)
        self.hold(
            [
                check_tells(diamond, 0, "accepted steps=24002 words=0 slots=4 depth=1\n"),
                Row(["run", "C", "7", "none"], 0, "result null\nvalue none\nsteps 16002 words 0\n", file=diamond),
            ]
        )
