"""bin/lint finds the faults that it checks for."""
import contextlib
import importlib.machinery
import importlib.util
import io
import os
import subprocess
import sys
import tempfile
import unittest
from unittest import mock

from page import TOP, text_of


def load():
    loader = importlib.machinery.SourceFileLoader("repository_lint", os.path.join(TOP, "bin/lint"))
    made = importlib.util.module_from_spec(importlib.util.spec_from_loader(loader.name, loader))
    loader.exec_module(made)
    return made


LINT = load()
PHRASES = [["so many", "a number"]]


def wrong(line, page="docs/PROTOCOL.md", inside=False):
    return list(LINT.wrong_in_line(page, line, inside, PHRASES))


class Lines(unittest.TestCase):
    def test_good_lines_pass(self):
        for line in (
            "A round ends.",
            "1. Read the frame.",
            "- `a. B` is code, and e.g. this is one sentence.",
            "# Rounds. And streams",
            "| a. B | so on |",
            "See [the theorem](ASSURANCE.md#the-theorem) and [elsewhere](https://example.org/).",
        ):
            self.assertEqual(wrong(line), [], line)

    def test_wrong_lines_are_found(self):
        for line, word in (
            ("A round ends. Another begins.", "two sentences"),
            ("It ends `x`. `y` begins.", "two sentences"),
            ("There are so many of them.", "so many"),
            ("x" * 301, "301 characters"),
            ("|" + "x" * 300, "301 characters"),
            ("See [it](NOWHERE.md).", "there is no docs/NOWHERE.md"),
            ("See [it](ASSURANCE.md#nothing).", "no heading for #nothing"),
        ):
            self.assertEqual(len(wrong(line)), 1, line)
            self.assertIn(word, wrong(line)[0])

    def test_code_may_say_what_it_likes(self):
        self.assertEqual(wrong("so many. Or [it](NOWHERE.md)", inside=True), [])
        self.assertEqual(wrong("A. B", page="examples/README.md"), [])


def linted(folder, files, *checks):
    """Writes these files and what bin/lint needs into a folder, makes it a repository, and runs checks there. Returns the status and the lines."""
    by = {path: text_of(path) for path in ("bin/lint", "lint/checkstyle.xml", "pyproject.toml")}
    for path, text in {**by, **files}.items():
        os.makedirs(os.path.dirname(os.path.join(folder, path)), exist_ok=True)
        with open(os.path.join(folder, path), "w", encoding="utf-8") as it:
            it.write(text)
    subprocess.run(["git", "init", "-q", folder], check=True)
    subprocess.run(["git", "-C", folder, "add", "."], check=True)
    ran = subprocess.run([sys.executable, os.path.join(folder, "bin/lint"), *checks], stdout=subprocess.PIPE, text=True)
    return ran.returncode, ran.stdout.split("\n")[:-1]


class Planted(unittest.TestCase):
    """Each check passes correct files, and fails for one fault in one of them. None changes a file without --fix."""

    def hold(self, check, files, path, *faults):
        with tempfile.TemporaryDirectory() as folder:
            status, lines = linted(folder, files, check)
            if any(f"lint {check}: skipped" in line for line in lines):
                self.skipTest(lines[0])
            self.assertEqual((status, lines), (0, [f"lint {check}: ok", "1 passed, 0 failed"]))
            for fault, word in faults:
                status, lines = linted(folder, {**files, path: fault}, check)
                self.assertEqual((status, lines[-1]), (1, "0 passed, 1 failed"), fault)
                self.assertTrue(any(word in line for line in lines), (fault, lines))
                with open(os.path.join(folder, path), encoding="utf-8") as it:
                    self.assertEqual(it.read(), fault)

    def test_layout_of_a_crate(self):
        path = "crates/a/src/a.rt"
        good = "pub fn one() -> u32 {\n    1\n}\n"
        self.hold("rattle", {path: good}, path, (good.replace("    1", " 1"), path))

    def test_layout_and_clippy_of_rust(self):
        manifest = '[package]\nname = "a"\nversion = "0.1.0"\nedition = "2021"\n'
        good = "pub fn size(of: &[u8]) -> usize {\n    of.len()\n}\n"
        files = {"a/Cargo.toml": manifest, "a/src/lib.rs": good, ".gitignore": "target/\nCargo.lock\n"}
        layout, clippy = good.replace("    of", "  of"), good.replace("[u8]", "Vec<u8>")
        unused = good + "\nfn unused() {}\n"
        faults = [(layout, "Diff in"), (clippy, "clippy"), (unused, "never used")]
        self.hold("rust", files, "a/src/lib.rs", *faults)

    def test_layout_and_flake8_of_python(self):
        good = '"""Says it."""\nimport sys\n\nprint(sys.argv)\n'
        faults = [
            (good.replace("(sys.argv)", "( sys.argv )"), "+print(sys.argv)"),
            (good.replace("print(sys.argv)", "print()"), "F401"),
        ]
        self.hold("python", {"a.py": good}, "a.py", *faults)
        script = "#!/usr/bin/env python3\n" + good
        self.hold("python", {"bin/a": script}, "bin/a", (script.replace("print(sys.argv)", "print()"), "F401"))

    def test_checkstyle_of_java(self):
        good = "final class A {\n}\n"
        fault = "import java.util.List;\n\n" + good
        self.hold(
            "java", {"A.java": good}, "A.java", (fault, "UnusedImports"), (good.replace("\n}", "  \n}"), "trailing")
        )

    def test_shellcheck(self):
        good = '#!/usr/bin/env bash\necho "$1"\n'
        self.hold("shell", {"bin/a": good}, "bin/a", (good.replace('"', ""), "SC2086"))


class Missing(unittest.TestCase):
    def test_a_check_without_its_tool_says_what_to_install(self):
        for check in ("rattle", "rust", "python", "java", "shell"):
            with mock.patch.object(LINT.shutil, "which", lambda *_, **__: None), contextlib.redirect_stdout(
                io.StringIO()
            ) as printed:
                self.assertEqual(LINT.main([check]), 0)
            self.assertRegex(
                printed.getvalue(), rf"^lint {check}: skipped: there is no \w+ \(.*\)\n0 passed, 0 failed\n$"
            )

    def test_another_black_lays_out_otherwise(self):
        with tempfile.TemporaryDirectory() as folder:
            for name in ("black", "flake8"):
                path = os.path.join(folder, name)
                with open(path, "w", encoding="utf-8") as it:
                    it.write("#!/bin/sh\necho 'black, 24.2.0 (compiled: yes)'\n")
                os.chmod(path, 0o755)
            with mock.patch.dict(os.environ, PATH=f"{folder}:{os.environ['PATH']}"), contextlib.redirect_stdout(
                io.StringIO()
            ) as printed:
                self.assertEqual(LINT.main(["python"]), 0)
        self.assertIn("skipped: the sources are laid out by black 23, and this is 24.2.0\n", printed.getvalue())


class Repository(unittest.TestCase):
    def test_words_and_sizes_are_found_in_a_repository(self):
        """A repository of three files, each with one fault."""
        words = "word\tinstead\twhere\nweave\ttranslate\tcrates/verify\ncrates/older/\tcrates/newer/\t.\n"
        files = {
            "lint/words.tsv": words,
            "lint/phrases.tsv": "phrase\tinstead\nso many\ta number\n",
            "crates/verify/src/lib.rt": "fn weave() {}\nfn weaver() {}\n",
            "docs/A.md": "Read crates/older/src.\nThere are so many.\n",
        }
        with tempfile.TemporaryDirectory() as folder:
            status, lines = linted(folder, files, "pages", "words")
            self.assertEqual(status, 1)
            self.assertEqual(
                lines,
                [
                    "docs/A.md:2: 'so many': write a number",
                    "lint pages: 1 lines above",
                    "crates/verify/src/lib.rt:1:fn weave() {}: write translate",
                    "docs/A.md:1:Read crates/older/src.: write crates/newer/",
                    "lint words: 2 lines above",
                    "failed: bin/lint: pages: docs/A.md:2: 'so many': write a number",
                    "failed: bin/lint: words: crates/verify/src/lib.rt:1:fn weave() {}: write translate",
                    "0 passed, 2 failed",
                ],
            )


if __name__ == "__main__":
    unittest.main()
