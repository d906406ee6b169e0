"""bin/build in a small repository."""
import os
import re
import tempfile
import unittest

import tiny
from shared import sum_of


def without_kept(output):
    """Returns the output without rt's lines on what it begins with, if another checkout on this machine kept a crate of the same name."""
    return "".join(line for line in output.splitlines(True) if not re.match(r"rt: \w+: begins with ", line))


@unittest.skipIf(os.environ.get("JENTRY_TRIAL"), "it proves a crate")
class Builds(unittest.TestCase):
    def test_a_fresh_clone_is_built_whatever_crates_txt_counts(self):
        """The counts in the small repository's crates.txt are wrong for both crates. The build shows its progress, and compares the program."""
        self.assertEqual(re.findall(r"may_wait=(\d)", tiny.CRATES), ["3", "2"])
        with tempfile.TemporaryDirectory() as room:
            folder = f"{room}/tiny"
            tiny.make(folder)
            tiny.write(f"{folder}/CHANGELOG.md", f"# Changelog\n\n## 1.2.3\n\n- program sha256 {64 * '0'}\n")
            output, errors, status = tiny.run(folder, "bin/build")
            self.assertEqual((without_kept(output), status), ("", 0), errors)
            first, *crates, last = errors.splitlines()
            self.assertRegex(first, r"^jentry: proving and building 2 crates, (about|less than) .* left$")
            self.assertRegex(crates[0], r"^jentry: 1 of 2 crates, low after \d+ s, (about|less than) .* left$")
            self.assertRegex(crates[1], r"^jentry: 2 of 2 crates, jentry after \d+ s$")
            program = f"{folder}/crates/jentry/out/jentry"
            self.assertEqual(
                last,
                f"jentry: crates/jentry/out/jentry is proved; it is not the program of release 1.2.3 (sha256 {sum_of(program)} here, {64 * '0'} there)",
            )
            # Now the proved program runs, without a message on standard error.
            self.assertEqual(tiny.run(folder, "bin/jentry", "check", "examples/Plus.class"), ("accepted 727\n", "", 0))

    def test_a_later_build_uses_what_an_earlier_one_proved(self):
        """Builds of another program and of a library for C come after that of jentry, with a check's work beside them. Only the new crates are
        proved, until a file changes."""
        with tempfile.TemporaryDirectory() as room:
            folder = f"{room}/tiny"
            tiny.make(folder)
            tiny.write(f"{folder}/crates.txt", tiny.CRATES + "bench: low\nembed staticlib: low\n")
            tiny.write(f"{folder}/crates/bench/src/main.rt", tiny.PROGRAM)
            tiny.write(f"{folder}/crates/embed/src/lib.rt", tiny.EXPORTS)
            self.assertEqual(tiny.run(folder, "bin/build")[2], 0)
            made = os.stat(f"{folder}/crates/low/out/rlib").st_mtime_ns
            checked = tiny.run(f"{folder}/crates/low", "../../bin/rt", "check", "--jobs", "1")
            self.assertEqual(checked[2], 0, checked)
            for name in ("bench", "embed"):
                output, errors, status = tiny.run(folder, "bin/build", name)
                self.assertEqual((without_kept(output), status), ("", 0), errors)
                self.assertRegex(
                    errors,
                    rf"^{name}: proving and building 1 of 2 crates, less than a minute left \(1 were proved here and haven't changed\)\n"
                    rf"{name}: 2 of 2 crates, {name} after \d+ s\n{name}: crates/{name}/out/\S+ is proved\n$",
                )
                self.assertEqual(os.stat(f"{folder}/crates/low/out/rlib").st_mtime_ns, made)
            tiny.write(f"{folder}/crates/low/src/lib.rt", tiny.LIBRARY.replace("one function", "a function"))
            _, errors, status = tiny.run(folder, "bin/build", "bench")
            self.assertEqual(status, 0, errors)
            self.assertRegex(errors, r"^bench: .* \(1 that an earlier build proved are proved again: .*\)\n")
            self.assertNotEqual(os.stat(f"{folder}/crates/low/out/rlib").st_mtime_ns, made)

    def test_what_is_not_proved_is_not_built(self):
        """The library adds one to any number, which may overflow."""
        with tempfile.TemporaryDirectory() as room:
            folder = f"{room}/tiny"
            tiny.make(folder)
            tiny.write(f"{folder}/crates/low/src/lib.rt", tiny.LIBRARY.replace("    x\n", "    x + 1\n"))
            output, errors, status = tiny.run(folder, "bin/build")
            self.assertEqual((without_kept(output), status), ("", 3))
            self.assertIn("jentry: low failed; its last words:", errors)
            self.assertFalse(os.path.exists(f"{folder}/crates/jentry/out/jentry"))


class Lines(unittest.TestCase):
    def test_lines_of_another_form_are_answered(self):
        for words, status, wanted in [
            (["--help"], 0, "usage: bin/build"),
            (["--nothing"], 2, "usage: bin/build"),
            (["absent"], 2, "crates/absent is no program"),
        ]:
            output, errors, found = tiny.run(tiny.TOP, "bin/build", *words)
            self.assertEqual(found, status)
            self.assertIn(wanted, output if status == 0 else errors)

    def test_a_machine_without_a_kit_is_told_what_to_install(self):
        output, errors, status = tiny.run(tiny.TOP, "bin/build", PATH="/usr/bin:/bin")
        self.assertEqual((output, status, errors.count("\n")), ("", 3, 1))
        self.assertRegex(
            errors,
            r"^build: there is no Rattle kit .*: install one with logic [0-9a-f]{16} and put the folder of its rt on PATH",
        )
