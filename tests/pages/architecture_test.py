"""docs/ARCHITECTURE.md against the repository: the crates, files and names that it mentions exist."""
import os
import re
import unittest

from page import FENCE, TICKED, TOP, lines_of, tables_of, text_of, words_of_code

PAGE = "docs/ARCHITECTURE.md"
PATH = re.compile(r"(?<![\w./`])((?:crates|clients|examples|tests|bench|bin|docs)/[\w./-]+)")


def crates():
    return re.findall(r"^(\w+)[^:\n]*:", text_of("crates.txt"), re.M)


def diagrams():
    """Yields the lines of the diagrams."""
    inside = False
    for line in text_of(PAGE).split("\n"):
        if line.startswith(FENCE):
            inside = not inside
        elif inside:
            yield line


class Architecture(unittest.TestCase):
    def test_each_crate_is_in_a_group_once(self):
        groups = [row for head, rows in tables_of(PAGE) if head[0] == "Group" for row in rows]
        named = [it for row in groups for it in TICKED.findall(row[1])]
        self.assertEqual(sorted(named), sorted(crates()))

    def test_files_are_there(self):
        found = [path.rstrip(".,") for _, line in lines_of(PAGE) for path in PATH.findall(line)]
        self.assertGreater(len(found), 25)
        for path in found:
            with self.subTest(path=path):
                self.assertTrue(os.path.exists(os.path.join(TOP, path)), path)

    def test_names_are_in_the_code(self):
        known = words_of_code()
        named = {
            word
            for _, line in lines_of(PAGE)
            for it in TICKED.findall(line)
            for word in re.findall(r"\w+", it)
            if "/" not in it and "." not in it and "*" not in it
        }
        named -= {"process", "CacheLoader", "crates", "getValue", "added"}
        self.assertGreater(len(named), 80)
        self.assertEqual(sorted(named - known - set(crates())), [])

    def test_functions_of_the_diagrams_are_there(self):
        """Each name in the diagrams with an underscore or a capital letter at its start is in the crates' sources, or is a crate."""
        known = words_of_code()
        words = [it for line in diagrams() for it in re.findall(r"\b[a-z]+(?:_[a-z]+)+\b|\b[A-Z]\w+(?:::\w+)?", line)]
        self.assertGreater(len(words), 60)
        self.assertEqual(sorted({part for it in words for part in it.split("::")} - known - set(crates())), [])

    def test_forty_terms_are_explained(self):
        terms = [row for head, rows in tables_of(PAGE) if head[0] == "Term" for row in rows]
        self.assertGreaterEqual(len(terms), 40)


if __name__ == "__main__":
    unittest.main()
