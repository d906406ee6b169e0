"""The output of `jentry explain`."""
import glob
import os
import random
import re
import resource
import shutil
import subprocess
import tempfile
import unittest

import row_classes as rows
from running import Runs, proved_only, side_by_side, told

TOP = os.path.dirname(os.path.dirname(os.path.dirname(os.path.abspath(__file__))))
REFUSED = os.path.join(TOP, "examples", "refused")
MARK = "// refused"
"""Marks, at its end, the line of source that is named."""


def bytes_of(path):
    with open(path, "rb") as it:
        return it.read()


def marked(source):
    """Returns the number of the line that a comment marks, or None."""
    with open(source, encoding="utf-8") as it:
        found = [at for at, line in enumerate(it, 1) if line.rstrip().endswith(MARK)]
    assert len(found) <= 1, source
    return found[0] if found else None


def named(output):
    """Returns the first line of source that an explanation names, or None."""
    found = re.search(rb"^line (\d+)$", output, re.MULTILINE)
    return int(found.group(1)) if found else None


def sources():
    return sorted(glob.glob(os.path.join(REFUSED, "*.java")))


def compiled(source, *options):
    """Returns the bytes of the class that javac makes of a source."""
    with tempfile.TemporaryDirectory() as folder:
        words = [
            "javac",
            "-nowarn",
            *options,
            "-implicit:none",
            "-sourcepath",
            os.path.join(TOP, "examples", "api"),
            "-d",
            folder,
            source,
        ]
        subprocess.run(words, check=True, stdout=subprocess.DEVNULL, stderr=subprocess.DEVNULL)
        return bytes_of(os.path.join(folder, os.path.basename(source)[: -len(".java")] + ".class"))


def spent():
    """Returns the processor time of all programs that have ended, in seconds."""
    used = resource.getrusage(resource.RUSAGE_CHILDREN)
    return used.ru_utime + used.ru_stime


def many_methods():
    """A class of some 60 KB with 250 methods besides `process`."""
    names = [rows.utf8(b"m%d" % number) for number in range(250)]
    methods = [
        rows.Method(0x0008, rows.FURTHER + number, 8, 0, 0, 215 * b"\0" + b"\xb1", b"", None) for number in range(250)
    ]
    return rows.class_of(rows.process(1, 3, rows.GIVE), *methods, further=names)


class Explain(Runs):
    variable = "JENTRY_PROGRAM"

    def explained(self, file):
        return told(self.program, ["explain", "C"], file)

    def lines(self, file):
        return self.explained(file).output.decode("ascii").split("\n")

    def begins_as_check(self, file):
        check, whole = told(self.program, ["check", "C"], file), self.explained(file)
        self.assertEqual(whole.status, check.status)
        self.assertEqual(whole.errors, b"")
        self.assertTrue(whole.output.startswith(check.output), whole)
        return whole.output[len(check.output) :]

    def test_the_line_of_check_comes_first(self):
        files = [bytes_of(path) for path in glob.glob(os.path.join(TOP, "examples", "**", "*.class"), recursive=True)]
        for behind in side_by_side(self.begins_as_check, files):
            self.assertTrue(behind.endswith(b"\n"))

    def test_the_marked_line_is_named(self):
        for source in sources():
            with self.subTest(source=source):
                told_of = self.explained(bytes_of(source[: -len(".java")] + ".class"))
                self.assertEqual(named(told_of.output), marked(source))

    @unittest.skipUnless(shutil.which("javac"), "there is no javac")
    def test_the_marked_line_is_named_with_g_and_none_without_lines(self):
        def of(source):
            if os.path.basename(source) in ("NewerVersion.java", "TooLarge.java"):
                return None
            return source, compiled(source, "--release", "8", "-g"), compiled(source, "--release", "8", "-g:none")

        for source, whole, bare in filter(None, side_by_side(of, sources())):
            with self.subTest(source=source):
                self.assertEqual(named(self.explained(whole).output), marked(source))
                without = self.explained(bare)
                self.assertIsNone(named(without.output))
                self.assertEqual(without.output.split(b"\n")[1], self.explained(whole).output.split(b"\n")[1])

    def test_types_are_told_where_they_are_the_reason(self):
        self.assertEqual(
            self.lines(rows.named("Mixed"))[:6],
            [
                "refused 22 TypeMismatch at 1",
                "method Object process(MutableEntry, Object...)",
                "instruction 1 areturn",
                "locals this, MutableEntry, Object[]",
                "operands long",
                "No Java source was seen to cause this: compile the class again.",
            ],
        )

    def test_switches_are_told_by_their_cases(self):
        def other(name, old, new):
            method = rows.CLASSES[name][0]
            return rows.class_of(method._replace(code=method.code.replace(bytes.fromhex(old), bytes.fromhex(new), 1)))

        many = "aa0000" + "00000000" + "ffffffff" + "00000005" + 7 * "00000001"
        for file, verdict, instruction in [
            (
                other("Table", "0000001e", "00000000"),
                "20 BackwardBranch",
                "13 tableswitch of 2 cases: 1 -> 36, 2 -> 41, default -> 13",
            ),
            (
                other("Look", "0000000900000020", "0000000900000024"),
                "19 BadTarget",
                "13 lookupswitch of 2 cases: -5 -> 40, 9 -> 49, default -> 47",
            ),
            (other("Look", "00000002", "ffffffff"), "18 BadOperand", "13 lookupswitch of -1 cases: default -> 47"),
            (
                rows.class_of(rows.process(2, 3, bytes.fromhex("03" + "ab0000" + "00000000" + "00000000"))),
                "20 BackwardBranch",
                "1 lookupswitch of 0 cases: default -> 1",
            ),
            (
                rows.class_of(rows.process(2, 3, bytes.fromhex("03" + many))),
                "20 BackwardBranch",
                "1 tableswitch of 7 cases: -1 -> 2, 0 -> 2, 1 -> 2, 2 -> 2, .., default -> 1",
            ),
        ]:
            with self.subTest(instruction=instruction):
                lines = self.lines(file)
                self.assertEqual(lines[0], "refused " + verdict)
                self.assertIn("instruction " + instruction, lines)

    def test_a_cut_switch_ends_where_it_is_cut(self):
        for code, instruction in [
            ("aa", "1 tableswitch"),
            ("ab000000000010ffff", "1 lookupswitch"),
            ("ab0000000000100000000200000001", "1 lookupswitch of 2 cases:"),
            ("aa0000000000100000000100000002000000ff", "1 tableswitch of 2 cases: 1 -> 256,"),
        ]:
            with self.subTest(code=code):
                lines = self.lines(rows.class_of(rows.process(2, 3, bytes.fromhex("03" + code))))
                self.assertEqual(lines[0], "refused 18 BadOperand")
                self.assertIn("instruction " + instruction, lines)

    def test_wide_forms_are_told_by_their_names(self):
        far = self.lines(rows.class_of(rows.CLASSES["Far"][0]._replace(max_locals=257)))
        self.assertEqual(
            far[:5],
            [
                "refused 22 TypeMismatch at 1",
                "method Object process(MutableEntry, Object...)",
                "instruction 1 wide lstore 256",
                "locals this, MutableEntry, Object[]",
                "operands long",
            ],
        )
        jump = rows.CLASSES["Jump"][0]
        self.assertIn(
            "instruction 0 goto_w 0", self.lines(rows.class_of(jump._replace(code=b"\xc8\0\0\0\0" + jump.code[5:])))
        )

    def test_what_to_write_instead_is_of_the_opcode(self):
        for code, advice in [
            ("0c", "float and double"),
            ("33", "Arrays are of int or long"),
            ("53", "Arrays of references"),
            ("a8", "No Java source"),
            ("b3", "Static fields other than"),
            ("b4", "Fields"),
            ("c5", "Use one array"),
        ]:
            with self.subTest(code=code):
                lines = self.lines(rows.class_of(rows.process(2, 3, bytes.fromhex(code))))
                self.assertEqual(lines[0], "refused 17 OutsideProfile opcode %d" % int(code, 16))
                self.assertTrue(lines[-2].startswith(advice), lines)

    def test_the_compiler_is_named_where_it_helps(self):
        helps = {
            "Main": (7, "jentry-compile takes byte, short and char, and leaves unused methods out."),
            "StaticTable": (10, "jentry-compile computes static final tables and boxed constants at compile time."),
            "BoxedConstant": (10, "jentry-compile computes static final tables and boxed constants at compile time."),
            "StaticCounter": (17, "jentry-compile makes constants of final fields."),
            "InstanceField": (17, "jentry-compile makes constants of final fields."),
            "ByteArray": (17, "jentry-compile makes int arrays of byte, short, char and boolean arrays."),
            "Loop": (
                20,
                "compile the class with jentry-compile, which writes the passes of counted loops out, or use a formula.",
            ),
            "UnknownCall": (
                24,
                "jentry-compile copies most methods of Long, Integer, Boolean, Math and Objects into the class.",
            ),
        }
        for source in sources():
            name = os.path.basename(source)[: -len(".java")]
            lines = self.lines(bytes_of(source[: -len(".java")] + ".class"))
            with self.subTest(name=name):
                if name in helps:
                    number, text = helps[name]
                    self.assertTrue(lines[0].startswith(f"refused {number} "), lines)
                    self.assertTrue(lines[-2].endswith(text), lines)
                else:
                    told = any("jentry-compile" in line for line in lines)
                    self.assertEqual(
                        told,
                        lines[0].split()[1] in ("7", "10", "20", "24")
                        or lines[0].endswith(("178", "179", "180", "181", "188")),
                        lines,
                    )

    def test_an_unknown_type_of_a_frame_is_told(self):
        lines = self.lines(bytes_of(os.path.join(REFUSED, "DeclaredComparable.class")))
        self.assertIn("unknown type java/lang/Comparable", lines)

    def test_each_call_of_a_circle_is_told(self):
        lines = self.lines(rows.named("Circle"))
        self.assertEqual(lines[0], "refused 25 Recursive")
        self.assertEqual(
            [line for line in lines if line.startswith(("method", "instruction"))],
            [
                "method long help(long)",
                "instruction 1 invokestatic Row.other(J)J",
                "method long other(long)",
                "instruction 1 invokestatic Row.help(J)J",
            ],
        )

    def test_each_method_of_an_accepted_class_has_its_own_costs(self):
        lines = self.lines(rows.named("NestFault"))
        self.assertEqual(len(lines), 4)
        self.assertEqual(
            lines[1][: len("method Object process(MutableEntry, Object...) ")],
            "method Object process(MutableEntry, Object...) ",
        )
        self.assertEqual(lines[0].split(" ", 1)[1], lines[1].split(") ", 1)[1])
        self.assertEqual(lines[2], "method long help(long) steps=4 words=0 slots=6 depth=1")

    def test_a_table_of_lines_that_is_cut_gives_none(self):
        loop = bytes_of(os.path.join(REFUSED, "Loop.class"))
        table = b"\x00\x00\x00\x16\x00\x05\x00\x00\x00\x07"
        self.assertEqual(loop.count(table), 1)
        self.assertIsNone(
            named(self.explained(loop.replace(table, b"\x00\x00\x00\x16\x00\x04\x00\x00\x00\x07")).output)
        )

    def test_strange_names_are_printed_as_ascii(self):
        loop = bytes_of(os.path.join(REFUSED, "UnknownCall.class"))
        for name, shown in (
            (b"\x1b[2", rb"\u001b[2"),
            (b"a\xc3\xa9", rb"a\u00e9"),
            (b"ab\xff", None),
            (b"a\xc2b", rb"a\xc2b"),
        ):
            told_of = self.explained(loop.replace(b"\x00\x03abs", b"\x00\x03" + name))
            self.assertEqual(told_of.errors, b"")
            self.assertTrue(all(byte == 10 or 32 <= byte < 127 for byte in told_of.output), told_of)
            if shown:
                self.assertIn(b"java/lang/Math." + shown + b"(J)J", told_of.output)

    def test_any_bytes_get_an_answer(self):
        chance = random.Random(1)
        whole = [bytes_of(path) for path in glob.glob(os.path.join(REFUSED, "*.class"))]
        changed = []
        for _ in range(150):
            file = bytearray(chance.choice(whole))
            for _ in range(chance.randint(1, 4)):
                file[chance.randrange(len(file))] = chance.randrange(256)
            changed.append(bytes(file[: chance.choice((len(file), len(file), chance.randrange(len(file) + 1)))]))
        for behind in side_by_side(self.begins_as_check, changed):
            self.assertTrue(behind.endswith(b"\n"))

    def test_long_output_ends_where_nobody_reads(self):
        file = many_methods()
        self.assertGreater(len(self.explained(file).output), 4096)
        with tempfile.TemporaryDirectory() as folder:
            with open(os.path.join(folder, "C"), "wb") as it:
                it.write(file)
            read, write = os.pipe()
            os.close(read)
            ran = subprocess.run([self.program, "explain", "C"], cwd=folder, stdout=write, stderr=subprocess.PIPE)
            os.close(write)
            self.assertIn((ran.returncode, ran.stderr), ((3, b"error: cannot write\n"), (-13, b"")))

    @proved_only
    def test_a_class_of_64_kb_takes_half_a_second_at_most(self):
        file = many_methods()
        self.assertGreater(len(file), 60_000)
        before = spent()
        self.assertEqual(self.explained(file).status, 0)
        self.assertLess(spent() - before, 0.5)
