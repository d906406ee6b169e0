"""The tables in protocol/ against the server's sources, and the files that are generated from them."""
import os
import re
import shutil
import subprocess
import sys
import tempfile
import unittest

from page import TOP, rows_of, tables_of, text_of

sys.path.insert(0, os.path.join(TOP, "protocol"))
import generate

GENERATE = os.path.join(TOP, "protocol/generate.py")
ADVICE = "crates/explain_text/src/advice.rt"
LIMITS = {
    "LONGEST": ("crates/wire/src/reading.rt", r"const LONGEST: u32 = ([\d_]+);"),
    "MOST_JOBS": ("crates/serve/src/batch.rt", r"pub const MOST_JOBS: usize = ([\d_]+);"),
    "MOST_CLASSES": ("crates/serve/src/classes.rt", r"const MOST_CLASSES: usize = ([\d_]+);"),
    "MOST_ARGUMENTS": ("crates/jtypes/src/args.rt", r"ensures few \{ length self\.now ≤ (\d+)\)? \}"),
}
"""Where the server's sources have each limit."""


SOURCES = {
    "refusals": ("crates/jtypes/src/refusal.rt", "Refusal"),
    "exceptions": ("crates/jtypes/src/types.rt", "JavaFault", "Exception"),
}
"""Where the server's sources have numbers and names: the file and the enums."""


def named_by_the_enum(path, kind):
    """Returns the numbers and names of an enum in the server's sources."""
    numbered = re.findall(rf"\b{kind}::(\w+)(?:\(_\))? => (\d+),", text_of(path))
    named = dict(re.findall(rf"\b{kind}::(\w+)(?:\(_\))? => \"(\w+)\",", text_of(path)))
    return [(int(number), named[it]) for it, number in numbered]


def named_by_the_server(table):
    """Returns the numbers and names in the server's sources. Two enums may have the same one."""
    path, *kinds = SOURCES[table]
    return list(dict.fromkeys(it for kind in kinds for it in named_by_the_enum(path, kind)))


def names(table):
    return [row["name"] for row in rows_of(table)]


def numbers(table):
    return [int(row["number"]) for row in rows_of(table)]


def advice_of(function):
    """Returns what a function of the advice of `jentry explain` has: the pattern of each arm, and its text."""
    text = text_of(ADVICE)
    unseen = re.search(r'UNSEEN: &str = ("[^"]*")', text)[1]
    body = re.search(rf"^fn {function}\(.*?^\}}", text, re.M | re.S)[0].replace("UNSEEN", unseen)
    return re.findall(r'^ {8}(\S.*?) =>\s*(?:\{\s*)?"([^"]*)"', body, re.M)


def advice_of_refusal(row):
    """Returns the advice of `jentry explain` for a refusal."""
    number = int(row["number"])
    function = "of_layout" if number <= 6 else "of_shape" if number <= 15 else "of_code"
    texts = dict(advice_of("of_bounds" if number == 25 or number >= 27 else function))
    return texts.get("Refusal::" + row["name"], texts["_"])


class Server(unittest.TestCase):
    """The server's sources have what the tables have."""

    def test_numbers_rise(self):
        for table, first, least in (
            ("refusals", 1, 30),
            ("exceptions", 1, 10),
            ("denials", 1, 5),
            ("requests", 1, 8),
            ("replies", 1, 9),
            ("outcomes", 0, 4),
            ("values", 0, 5),
        ):
            self.assertEqual(numbers(table), list(range(first, first + len(numbers(table)))), table)
            self.assertGreaterEqual(len(numbers(table)), least)

    def test_refusals_and_exceptions(self):
        for table in SOURCES:
            self.assertEqual(named_by_the_server(table), list(zip(numbers(table), names(table))))

    def test_exceptions_that_a_class_may_throw(self):
        """The server knows the constructors of those that the table says a processor throws, by the names of their classes."""
        known = {it.replace("/", ".") for it in re.findall(r'b"([\w/]+)";', text_of("crates/constpool/src/names.rt"))}
        thrown = [row for row in rows_of("exceptions") if "thrown by the processor" in row["where"]]
        self.assertTrue({row["class"] for row in thrown} <= known)
        by_number = sorted(named_by_the_enum("crates/jtypes/src/types.rt", "Exception"))
        self.assertEqual([(int(row["number"]), row["name"]) for row in thrown], by_number)

    def test_outcomes(self):
        """The server's definitions of frames have the kinds of outcomes."""
        text = text_of("crates/wire/specs/Frames.antt")
        patterns = (r"\(Returned a\)", "fault", r"\(job\.Denied d\)", r"\(Thrown e text\)")
        found = [re.search(rf"_text {it} = (\d) ∷", text) for it in patterns]
        self.assertEqual([it and int(it[1]) for it in found], numbers("outcomes"))

    def test_denials(self):
        denials = re.findall(r"Denial::(\w+) => (\d+),", text_of("crates/wire/src/reply.rt"))
        self.assertEqual([(int(number), it) for it, number in denials], list(zip(numbers("denials"), names("denials"))))

    def test_limits(self):
        found = {name: int(re.search(pattern, text_of(path))[1]) for name, (path, pattern) in LIMITS.items()}
        self.assertEqual(found, {row["name"]: int(row["value"]) for row in rows_of("limits")})

    def test_faults_of_a_stream(self):
        page = {head[0]: rows for head, rows in tables_of("docs/PROTOCOL.md") if head[1] == "Name"}
        faults = re.findall(r"ServeFault::(\w+) => (\d+),", text_of("crates/serve/src/fault.rt"))
        self.assertEqual([(row[1], row[0]) for row in page["Fault"]], faults)

    def test_levels_are_those_of_the_verdict(self):
        """The refusals of types and bounds are those in the definitions of their levels."""
        text = text_of("crates/verdict/specs/Verdict.antt")
        types = re.findall(r"^BodyStands v e code tables \(?(\w+)", text, re.M)
        bounds = re.findall(r"^BoundStands profile c j (\w+)", text, re.M) + re.findall(
            r"^ClassStands profile c (Rec\w+)", text, re.M
        )
        for level, found in (("types", types), ("bounds", bounds)):
            wanted = [row["name"] for row in rows_of("refusals") if row["level"] == level]
            self.assertEqual(sorted(it for it in found if it[0].isupper()), sorted(wanted))

    def test_remedies_are_the_advice_of_explain(self):
        for row in rows_of("refusals"):
            if row["name"] != "OutsideProfile":
                self.assertEqual(row["remedy"], advice_of_refusal(row), row["name"])

    def test_remedies_of_opcodes_are_the_advice_of_explain(self):
        found = {it.replace(" | ", ", ").replace("..=", "-"): text for it, text in advice_of("of_opcode")}
        wanted = {row["opcodes"].replace("others", "_"): row["remedy"] for row in rows_of("opcodes")}
        self.assertEqual(found, wanted)


class Generated(unittest.TestCase):
    """The generated files have what the tables have, and the generator sees each one that hasn't."""

    def run_on(self, option, folder):
        """Runs the generator on a folder. Returns its status and its lines."""
        ran = subprocess.run([sys.executable, "-B", GENERATE, option, folder], capture_output=True, text=True)
        self.assertEqual(ran.stderr, "")
        return ran.returncode, ran.stdout.splitlines()

    def copy(self):
        """Returns a folder with the tables and the files with generated parts."""
        folder = tempfile.TemporaryDirectory()
        self.addCleanup(folder.cleanup)
        shutil.copytree(os.path.join(TOP, "protocol"), os.path.join(folder.name, "protocol"))
        for path in self.paths():
            os.makedirs(os.path.join(folder.name, os.path.dirname(path)), exist_ok=True)
            shutil.copy(os.path.join(TOP, path), os.path.join(folder.name, path))
        return folder.name

    @staticmethod
    def paths():
        return sorted({*generate.FILES, *(path for path, _ in generate.PARTS)})

    def with_refusals(self):
        """Returns the files with generated parts that have the refusals, the front's page without their names."""
        found = [it for it in self.paths() if "BadStackMap" in text_of(it) or it.endswith("page.html")]
        self.assertGreater(len(found), 5)
        return found

    def test_the_files_are_up_to_the_tables(self):
        wrong = list(generate.differing(TOP))
        self.assertEqual(wrong, [], f"run {generate.BY}")

    def test_a_refusal_that_is_added_concerns_each_file_with_refusals(self):
        folder = self.copy()
        with open(os.path.join(folder, "protocol/refusals.tsv"), "a", encoding="utf-8") as it:
            it.write("31\tTooOld\t\tlayout\ta class that is too old\tanother\t\tWrite another.\n")
        wanted = self.with_refusals()
        lines = [f"{it} differs from the tables in protocol/: run protocol/generate.py --write" for it in wanted]
        self.assertEqual(self.run_on("--check", folder), (1, lines))
        self.assertEqual(self.run_on("--write", folder), (0, wanted))
        self.assertEqual(self.run_on("--check", folder), (0, []))

    def test_a_refusal_without_a_row_is_seen(self):
        """The server's sources have one refusal more than a table whose last row is lost, and so has each file with refusals."""
        folder = self.copy()
        table = "protocol/refusals.tsv"
        self.replace(folder, table, text_of(table).rstrip("\n").rpartition("\n")[0] + "\n")
        left = generate.Tables(folder).names("refusals")
        self.assertEqual(named_by_the_server("refusals")[:-1], list(enumerate(left, 1)))
        self.assertEqual(list(generate.differing(folder)), self.with_refusals())

    def test_a_line_that_is_missing_in_one_file_is_seen(self):
        folder = self.copy()
        for path in self.paths():
            with open(os.path.join(folder, path), encoding="utf-8") as it:
                text = it.read()
            end = text.rfind(generate.END) if generate.END in text else len(text)
            last = text.rfind("\n", 0, text.rfind("\n", 0, end))
            with self.subTest(path=path):
                self.replace(folder, path, text[:last] + text[text.index("\n", last + 1) :])
                self.assertEqual(list(generate.differing(folder)), [path])
            self.replace(folder, path, text)

    @staticmethod
    def replace(folder, path, text):
        with open(os.path.join(folder, path), "w", encoding="utf-8") as it:
            it.write(text)


if __name__ == "__main__":
    unittest.main()
