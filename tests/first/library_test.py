"""bin/library, and bin/build of the same library, in a small repository."""
import os
import subprocess
import tempfile
import unittest

import tiny


@unittest.skipIf(os.environ.get("JENTRY_TRIAL"), "it proves a crate")
class Makes(unittest.TestCase):
    def setUp(self):
        room = tempfile.TemporaryDirectory()
        self.addCleanup(room.cleanup)
        self.folder = f"{room.name}/tiny"
        tiny.make(self.folder)
        tiny.write(f"{self.folder}/crates.txt", tiny.CRATES + "embed staticlib: low\n")
        tiny.write(f"{self.folder}/crates/embed/src/lib.rt", tiny.EXPORTS)

    def rt_ci(self):
        """Proves the library. CI is emptied: in the merge gate, which sets it, `rt ci` takes no names, and this repository is another one. Not each
        kit's rt takes them at all."""
        for names in (["embed"], []):
            output, errors, status = tiny.run(self.folder, f"{self.folder}/bin/rt", "ci", *names, CI="")
            if status == 0 or "usage: rt " not in output + errors:
                break
        # On a machine where this test has run, the crate is kept.
        self.assertRegex(output, r"(?m)^rt: embed (proved$|is kept)", errors)

    def test_over_what_was_proved(self):
        self.rt_ci()
        before = self.time_of_low()
        output, errors, status = tiny.run(self.folder, "bin/library")
        self.assertEqual((output, status), ("library: crates/embed/out/libembed.a is proved\n", 0), errors)
        self.exports()
        # What is below the library wasn't proved again.
        self.assertEqual(self.time_of_low(), before)

    def time_of_low(self):
        """Returns when the library below was made in this checkout; None if it wasn't, since a kit's `rt ci` with names works on a copy."""
        path = f"{self.folder}/crates/low/out/rlib"
        return os.path.getmtime(path) if os.path.exists(path) else None

    def exports(self):
        """Checks that the library has the function."""
        path = f"{self.folder}/crates/embed/out/libembed.a"
        told = subprocess.run(["nm", path], stdout=subprocess.PIPE, text=True, check=True).stdout
        self.assertIn(" T tiny_least\n", told)

    def test_a_build_from_nothing(self):
        _, errors, status = tiny.run(self.folder, "bin/build", "embed")
        self.assertEqual(status, 0, errors)
        self.assertIn("embed: crates/embed/out/libembed.a is proved\n", errors)
        self.exports()

    def test_nothing_is_made_over_what_was_not_proved(self):
        """The function has a name that no run has proved."""
        library = tiny.LIBRARY.replace("(x: usize)", f"(number_{os.getpid()}_{os.urandom(4).hex()}: usize)")
        library = library.replace("    x\n", "    0\n")
        tiny.write(f"{self.folder}/crates/low/src/lib.rt", library)
        output, errors, status = tiny.run(self.folder, "bin/library")
        self.assertEqual(
            (output, errors, status), ("", "library: no run of `rt ci` on this machine proved what is below it\n", 3)
        )
        self.assertFalse(os.path.exists(f"{self.folder}/crates/embed/out/libembed.a"))


class Lines(unittest.TestCase):
    def test_lines_of_another_form_are_answered(self):
        for words, status in [(["--help"], 0), (["embed"], 2)]:
            output, errors, found = tiny.run(tiny.TOP, "bin/library", *words)
            self.assertEqual(found, status)
            self.assertIn("usage: bin/library", output if status == 0 else errors)
