"""libjentry: its exports, its example, and its results compared with those of the program. JENTRY_PROGRAM names the built `jentry`, if it is
there."""
import os
import random
import shutil
import subprocess
import sys
import tempfile
import unittest
from concurrent.futures import ThreadPoolExecutor

HERE = os.path.dirname(os.path.dirname(os.path.abspath(__file__)))
TOP = os.path.dirname(os.path.dirname(HERE))
EXAMPLES = os.path.join(TOP, "examples")
TRIES = int(os.environ.get("JENTRY_TRIES", 300 if os.environ.get("JENTRY_TRIAL") else 10_000))
PATIENCE = 600
MOST = 2**63 - 1
SANITIZED = [
    "-std=c11",
    "-pthread",
    "-g",
    "-O1",
    "-Wall",
    "-Wextra",
    "-Werror",
    "-fsanitize=address,undefined",
    "-fno-sanitize-recover=all",
]
EMBED = os.environ.get("JENTRY_EMBED", os.path.join(TOP, "crates/embed/out/libembed.a"))
PROGRAM = os.environ.get("JENTRY_PROGRAM")
# The first one goes before clients/tests, which has another module `running`.
sys.path.insert(0, os.path.join(TOP, "tests/program"))
sys.path.append(os.path.join(TOP, "clients/tests"))

import throwing_classes  # noqa: E402  (it is in the clients' tests)


def run(*words, given=None, status=None, **how):
    """Runs a command, and returns its output and its status. It fails if the status isn't `status`, where one is given."""
    done = subprocess.run(
        [str(word) for word in words],
        input=given,
        stdout=subprocess.PIPE,
        stderr=subprocess.STDOUT,
        text=True,
        timeout=PATIENCE,
        check=False,
        **how,
    )
    if status is not None and done.returncode != status:
        raise AssertionError(f"{words} ended with status {done.returncode}:\n{done.stdout[-4000:]}")
    return done.stdout, done.returncode


def example_files(folder=""):
    folder = os.path.join(EXAMPLES, folder)
    return [os.path.join(folder, name) for name in sorted(os.listdir(folder)) if name.endswith(".class")]


NEEDS_PROGRAM = unittest.skipIf(PROGRAM is None, "there is no built jentry")


class Built(unittest.TestCase):
    @classmethod
    def setUpClass(cls):
        cls.folder = tempfile.mkdtemp(prefix="jentry-c-")
        cls.addClassCleanup(shutil.rmtree, cls.folder)
        shutil.copytree(HERE, os.path.join(cls.folder, "c"), ignore=shutil.ignore_patterns("out"))
        cls.out = os.path.join(cls.folder, "c", "out")
        run("make", "-C", os.path.join(cls.folder, "c"), f"EMBED={os.path.abspath(EMBED)}", status=0)
        cls.answers = os.path.join(cls.folder, "answers")
        sources = [os.path.join(HERE, name) for name in ("tests/answers.c", "memory.c", "names.c")]
        run("cc", *SANITIZED, "-o", cls.answers, *sources, os.path.abspath(EMBED), status=0)

    def write(self, name, file):
        path = os.path.join(self.folder, name)
        with open(path, "wb") as it:
            it.write(file)
        return path

    def thrower(self, number, modified=None, **how):
        """Writes a class that throws the exception with this number, and returns its path. `modified` is its text."""
        return self.write("Thrower.class", throwing_classes.throwing(number, modified, **how))

    def same(self, *words):
        """Checks that the C program and `jentry` print the same, with the same status."""
        self.assertEqual(run(self.answers, *words), run(PROGRAM, *words), words)


class Library(Built):
    def test_exported_names(self):
        wanted = {
            "jentry_" + name
            for name in (
                "open",
                "close",
                "define",
                "forget",
                "invoke",
                "text",
                "explain",
                "refusal_name",
                "exception_name",
            )
        }
        told, _ = run("nm", "-D", "--defined-only", os.path.join(self.out, "libjentry.so"), status=0)
        self.assertEqual({line.split()[-1] for line in told.splitlines()}, wanted)

    def test_what_it_needs(self):
        told, _ = run("ldd", os.path.join(self.out, "libjentry.so"), status=0)
        names = {os.path.basename(line.split()[0]).split(".so")[0] for line in told.splitlines()}
        self.assertEqual(names - {"linux-vdso", "ld-linux-x86-64"}, {"libc"})

    def test_example(self):
        told, status = run(os.path.join(self.out, "example"), os.path.join(EXAMPLES, "Add.class"), 7, 41, 1)
        self.assertEqual((told, status), ("returned 42 in 29 of at most 29 instructions\nset to 42\n", 0))
        told, status = run(os.path.join(self.out, "example"), os.path.join(EXAMPLES, "refused/Loop.class"), 7, 41)
        self.assertEqual((told, status), ("refused 20 BackwardBranch\n", 2))
        self.assertEqual(run(os.path.join(self.out, "example"), "none", 7, 41)[1], 1)
        for arguments, wanted in (
            ((50,), "returned false in 38 of at most 52 instructions\n"),
            ((40, "true"), "returned true in 48 of at most 52 instructions\n"),
            ((40, "false"), "returned true in 51 of at most 52 instructions\nset to 1\n"),
        ):
            told = run(os.path.join(self.out, "example"), os.path.join(EXAMPLES, "Reserve.class"), 7, 41, *arguments)
            self.assertEqual(told, (wanted, 0))
        with open(os.path.join(HERE, "example.c"), encoding="utf-8") as source:
            self.assertLessEqual(len(source.readlines()), 56)

    def test_example_prints_the_text_of_an_exception(self):
        example = os.path.join(self.out, "example")
        told = run(example, os.path.join(EXAMPLES, "Add.class"), 7, 41)
        self.assertEqual(told, ("threw ArrayIndexOutOfBoundsException in 7 of at most 29 instructions\n", 0))
        for modified, shown in ((None, ""), (b"sold out", ": sold out"), (b"n" * 300, ": " + "n" * 256)):
            told, status = run(example, self.thrower(8, modified), 7, 41)
            self.assertEqual((told.partition(" in ")[0], status), ("threw IllegalArgumentException" + shown, 0))

    def test_installed_and_shared(self):
        place = os.path.join(self.folder, "installed")
        run(
            "make",
            "-C",
            os.path.join(self.folder, "c"),
            f"EMBED={os.path.abspath(EMBED)}",
            "install",
            f"PREFIX={place}",
            status=0,
        )
        program = os.path.join(self.folder, "shared")
        run(
            "cc",
            "-std=c11",
            "-o",
            program,
            os.path.join(HERE, "example.c"),
            f"-I{place}/include",
            f"-L{place}/lib",
            "-ljentry",
            f"-Wl,-rpath,{place}/lib",
            status=0,
        )
        self.assertIn("set to 42", run(program, os.path.join(EXAMPLES, "Add.class"), 7, 41, 1, status=0)[0])

    def test_the_header_from_cpp(self):
        source = self.write(
            "layout.cpp",
            b'#include "jentry.h"\nint main() { jentry_handle engine = {}; return jentry_open(&engine) == 0 ? 0 : 1; }\n',
        )
        program = os.path.join(self.folder, "layout")
        if shutil.which("c++") is None:
            self.skipTest("there is no c++ (apt-get install g++)")
        run(
            "c++",
            "-std=c++11",
            "-Wall",
            "-Werror",
            f"-I{HERE}",
            "-o",
            program,
            source,
            os.path.join(self.out, "libjentry.a"),
            status=0,
        )
        run(program, status=0)


class Texts(Built):
    """The exceptions that a processor throws itself, with their texts."""

    def test_each_exception(self):
        for number, of in throwing_classes.EXCEPTIONS.items():
            name = of.rpartition("/")[2]
            for modified in (None, b"sold out", b"n" * 4000):
                for how in ({}, {"sets": True}, {"fillers": 300}):
                    with self.subTest(number=number, modified=modified, how=how):
                        told = run(self.answers, "thrown", self.thrower(number, modified, **how))
                        text = "" if modified is None else " " + modified.decode()
                        self.assertEqual(told, (f"{number} {name}{text}\n", 4))

    @NEEDS_PROGRAM
    def test_classes_that_throw_as_the_program_has_them(self):
        for number in throwing_classes.EXCEPTIONS:
            for modified, how in ((None, {}), (b"sold out", {"sets": True}), (b"sold out", {"fillers": 300})):
                path = self.thrower(number, modified, **how)
                for words in (("check", path), ("explain", path), ("run", path, 7, 41), ("run", path, 7, "none")):
                    with self.subTest(number=number, modified=modified, how=how, words=words):
                        self.same(*words)

    def test_a_text_in_modified_utf_8(self):
        """The character zero has two bytes, and one above U+FFFF is two surrogates of three bytes each (JVMS 4.4.7)."""
        modified = b"a\xc0\x80b \xc3\xa9 \xe2\x82\xac \xed\xa0\xbd\xed\xb8\x80"
        with subprocess.Popen([self.answers, "thrown", self.thrower(9, modified)], stdout=subprocess.PIPE) as ran:
            told = ran.communicate(timeout=PATIENCE)[0]
        self.assertEqual((told, ran.returncode), (b"9 IllegalStateException " + modified + b"\n", 4))

    def test_rooms_numbers_and_indexes(self):
        files = [os.path.join(EXAMPLES, "Add.class")]
        for place, (modified, fillers) in enumerate(((b"sold out", 0), (b"more than the stock has", 300), (None, 0))):
            file = throwing_classes.throwing(9, modified, fillers=fillers)
            files.append(self.write(f"Thrower{place}.class", file))
        self.assertEqual(run(self.answers, "texts", *files), ("0 failures\n", 0))


class Answers(Built):
    def test_edges(self):
        files = [os.path.join(EXAMPLES, name + ".class") for name in ("Add", "Plus", "Reserve")]
        told, _ = run(self.answers, "edges", *files)
        self.assertEqual(told, "0 failures\n")

    def test_handles_on_threads_of_their_own(self):
        told, _ = run(self.answers, "threads", os.path.join(EXAMPLES, "Add.class"))
        self.assertEqual(told, "800 right of 800\n")

    def test_verdicts_of_the_rows(self):
        import row_classes
        import rows_test

        for name, status, output in rows_test.CHECKED:
            with self.subTest(name=name):
                self.assertEqual(
                    run(self.answers, "check", self.write(name + ".class", row_classes.named(name))), (output, status)
                )

    def test_runs_of_the_rows(self):
        import row_classes
        import rows_test

        for name, words, status, output in rows_test.RAN:
            with self.subTest(name=name, words=words):
                path = self.write(name + ".class", row_classes.named(name))
                self.assertEqual(run(self.answers, "run", path, 7, *words.split()), (output, status))

    @NEEDS_PROGRAM
    def test_verdicts_and_explanations_of_examples(self):
        files = example_files() + example_files("refused")
        self.assertGreater(len(files), 50)
        for path in files:
            for command in ("check", "explain"):
                with self.subTest(path=path, command=command):
                    self.same(command, path)

    @NEEDS_PROGRAM
    def test_damaged_classes(self):
        chosen = random.Random(60)
        for number in range(max(50, TRIES // 50)):
            with open(chosen.choice(example_files()), "rb") as it:
                file = bytearray(it.read())
            for _ in range(chosen.randrange(1, 4)):
                file[chosen.randrange(len(file))] = chosen.randrange(256)
            path = self.write("damaged.class", bytes(file[: chosen.choice([len(file), chosen.randrange(len(file))])]))
            with self.subTest(number=number):
                self.same("check", path)

    @NEEDS_PROGRAM
    def test_random_calls(self):
        chosen = random.Random(60)
        files = example_files()
        lines = [" ".join([chosen.choice(files), *random_call(chosen)]) for _ in range(TRIES)]
        told, _ = run(self.answers, "calls", given="\n".join(lines) + "\n", status=0)
        told = told.splitlines()
        with ThreadPoolExecutor(2) as pool:
            said = list(pool.map(lambda line: run(PROGRAM, "run", *line.split())[0].splitlines(), lines))
        self.assertEqual(len(told), 3 * TRIES)
        for place, (line, wanted) in enumerate(zip(lines, said)):
            self.assertEqual(told[3 * place : 3 * place + 3], wanted, line)


def random_call(chosen):
    """Returns the words of a key, an entry and arguments. None is negative, since `jentry run` takes no negative number."""

    def number():
        return chosen.choice([0, 1, 5, 41, 2**31, MOST, chosen.randrange(10**6), chosen.getrandbits(63)])

    args = [
        chosen.choice([str(number()), str(number()), f"{chosen.randrange(2**31)}i", "null", "true", "false"])
        for _ in range(chosen.randrange(5))
    ]
    return [str(number()), chosen.choice(["none", str(number()), str(number())]), *args]
