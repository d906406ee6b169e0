"""bin/proof-costs, which lists what proofs take."""
import os
import tempfile
import unittest

import tiny


def keep(folder, name, at, text=""):
    """Writes a kept file of this name, with this time in seconds."""
    path = f"{folder}/crates/low/out/incremental/{name}"
    tiny.write(path, text)
    os.utime(path, (at, at))


class Costs(unittest.TestCase):
    @unittest.skipIf(os.environ.get("JENTRY_TRIAL"), "it proves a crate")
    def test_a_proved_function_is_listed(self):
        """Reads the files of a real check: nothing is found in them if the toolchain's files have another form."""
        with tempfile.TemporaryDirectory() as room:
            folder = f"{room}/tiny"
            tiny.make(folder)
            checked = tiny.run(f"{folder}/crates/low", "../../bin/rt", "check", "--jobs", "1")
            self.assertEqual(checked[2], 0, checked[0])
            output, errors, status = tiny.run(folder, "bin/proof-costs", "low", "50")
            self.assertEqual((errors, status), ("", 0))
            self.assertRegex(output, r"^\d+ seconds, \d+ million steps\n")
            self.assertRegex(output, r"\n +\d+\.\d s  least  .*\bLts \d+\.\d")
            self.assertRegex(output, r"\n +\d+\.\d\d M  \S+  proofs\.least\.")

    def test_seconds_are_those_between_files_by_function_and_part(self):
        """A pause between two checks doesn't count, and a type with the name of a part is no part."""
        with tempfile.TemporaryDirectory() as room:
            folder = f"{room}/tiny"
            tiny.make(folder)
            keep(folder, "Rattle-low-specs.Words.oantt", 1000)
            keep(folder, "Rattle-low-proofs.Code.at.Lts.oantt", 1004)
            keep(folder, "Rattle-low-proofs.Code.at.Lts.View.oantt", 1005)
            items = '[{"name":"returns","notes":[],"own":[1],"phases":[1000000,500000]}]'
            keep(folder, "records/Rattle-low-proofs.Code.at.Proof.decls.oantt", 1007, items)
            keep(folder, "Rattle-low-proofs.Lemmas.oantt", 2007)
            output, errors, status = tiny.run(folder, "bin/proof-costs", "low")
            wanted = "7 seconds, 2 million steps\n     7.0 s  Code.at  Lts 5.0 Proof 2.0\n     0.0 s  Rattle-low-proofs.Lemmas\n"
            self.assertEqual((output, errors, status), (f"{wanted}    1.50 M  returns  proofs.Code.at.Proof\n", "", 0))

    def test_lines_of_another_form_are_answered(self):
        for words, wanted in [
            (["--help"], 0),
            ([], 2),
            (["low", "none"], 2),
            (["low", "0"], 2),
            (["low", "1", "2"], 2),
            (["absent"], 3),
        ]:
            output, errors, status = tiny.run(tiny.TOP, "bin/proof-costs", *words)
            self.assertEqual(status, wanted)
            if wanted == 3:
                self.assertRegex(errors, r"^proof-costs: no check kept its work in .*absent.*\n$")
            else:
                self.assertIn("usage: bin/proof-costs CRATE [N]", errors if wanted else output)
