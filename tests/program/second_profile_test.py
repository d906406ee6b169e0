"""Each class that the second profile accepts is accepted, with the same bounds."""
import os

import second_profile as second
from running import Runs, side_by_side, told

NEW = (b"java/lang/Boolean", b"java/lang/Void")
"""The names that only later profiles know."""


def table():
    """Returns the cells of the rows of second_profile.tsv."""
    path = os.path.join(second.TOP, "tests/program/second_profile.tsv")
    with open(path, encoding="ascii") as it:
        return [line.rstrip("\n").split("\t") for line in it]


class SecondProfile(Runs):
    variable = "JENTRY_PROGRAM"

    def verdicts(self, folder=""):
        """Returns the name and the bytes of each class whose name begins so, what was printed of it, and what is printed now."""
        was = dict(row for row in table() if len(row) == 2 and row[0].startswith(folder))
        classes = [(name, file) for name, file in second.classes() if name in was]
        self.assertEqual(len(classes), len(was))
        now = side_by_side(lambda it: told(self.program, ["check", "C"], it[1]), classes)
        return [(name, file, was[name], it.output.decode().strip()) for (name, file), it in zip(classes, now)]

    def test_named_classes(self):
        count = {"accepted": 0, "refused": 0}
        for name, file, was, now in self.verdicts():
            if was.startswith("accepted") or not any(it in file for it in NEW):
                count[was.split()[0]] += 1
                with self.subTest(name=name):
                    self.assertEqual(now, was)
        self.assertGreater(count["accepted"], 50)
        self.assertGreater(count["refused"], 40)

    def test_classes_that_name_what_is_new(self):
        """The second profile refuses them by 7, 24 and 21."""
        rows = self.verdicts("tests/program/classes/")
        self.assertEqual({was.split()[1] for _, _, was, _ in rows}, {"7", "24", "21"})
        for name, _, _, now in rows:
            with self.subTest(name=name):
                self.assertTrue(now.startswith("accepted "), now)

    def test_changed_classes(self):
        """Class files with one changed byte."""
        changed = [row for row in table() if len(row) == 3]
        # A trial build is slow.
        for name, places, checksum in changed[:1] if os.environ.get("JENTRY_TRIAL") else changed:
            file, _, each = name.split()
            was = [place for place, bit in enumerate(reversed(f"{int(places, 16):b}")) if bit == "1"]
            self.assertGreater(len(was), 100)
            with self.subTest(name=name):
                files = list(second.changed(second.file_of(file), int(each)))
                now = second.judged(self.program, [files[place] for place in was])
                self.assertEqual(
                    second.summary({place: now.get(at) or (0, 0) for at, place in enumerate(was)})[1], checksum
                )
