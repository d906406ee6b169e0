"""docs/ASSURANCE.md against the crates: the calls, clauses, definitions, edits and tests that it names exist, with all clauses of a listed call."""
import glob
import os
import re
import unittest

from page import TICKED, TOP, contract_of, is_defined, tables_of, text_of

PAGE = "docs/ASSURANCE.md"
CALL = re.compile(r"`([\w:]+)` (crates/\S+\.rt)")
OUTER = (
    "verify machine world registry cache claims invokeall workers round_robin wire serve table_loader embedded embed explain_text"
).split()
"""The crates that programs, the C library and callers of the cache use. All of their public calls are on the page."""
DEFINITION = re.compile(r"`(\w+)` ([a-z_]+/[A-Z]\w+)")


def table(first):
    """Returns the rows of all tables whose head begins with this word."""
    return [row for head, rows in tables_of(PAGE) if head[0].startswith(first) for row in rows]


def calls():
    """Returns the clauses that the page names for each call and its file."""
    found, current = {}, None
    for row in table("Call"):
        call = CALL.fullmatch(row[0])
        if row[0]:
            assert call, row[0]
            current = call.groups()
            found[current] = []
        found[current] += ["(unnamed)"] if row[1] == "(unnamed)" else TICKED.findall(row[1])
    return found


def exported_names(crate):
    """Returns the names that a crate's root file exports."""
    used = re.findall(r"^pub use ([^;]+);", text_of(f"crates/{crate}/src/lib.rt"), re.M)
    return {name for it in used for name in re.findall(r"\b\w+\b(?!::)", it)}


def methods_of(crate, types):
    """Yields the public methods of these types, such as `Cache::open`."""
    for path in glob.glob(os.path.join(TOP, f"crates/{crate}/src/**/*.rt"), recursive=True):
        inside = ""
        for line in text_of(os.path.relpath(path, TOP)).split("\n"):
            start = re.match(r"impl\b[^{]*?(\w+)(?:<[^{]*>)? \{", line)
            inside = start[1] if start else "" if line == "}" else inside
            method = re.match(r"    pub (?:const )?fn (\w+)", line)
            if method and inside in types:
                yield f"{inside}::{method[1]}"


def public_calls(crate):
    """Returns the public functions and methods that a crate's root file exports, and its exports for C."""
    names = exported_names(crate)
    exports = re.findall(r'^pub extern "C" fn (\w+)', text_of(f"crates/{crate}/src/lib.rt"), re.M)
    return {it for it in names if it[0].islower()} | set(methods_of(crate, names)) | set(exports)


def calls_on_the_page():
    """Returns the names of the calls in the tables of the page, with those of a cache that the page names beside call_at."""
    first = [row[0] for head in ("Call", "Law") for row in table(head)]
    found = {name for cell in first for name in TICKED.findall(cell)}
    found |= {name for row in table("Crate") for name in TICKED.findall(row[1])}
    others = re.search(r"^(.*) of `Cache`, and each with `_at`, have the clauses", text_of(PAGE), re.M)[1]
    return found | {f"Cache::{name}{end}" for name in TICKED.findall(others) for end in ("", "_at")}


class Complete(unittest.TestCase):
    def test_all_public_calls_are_listed(self):
        """A call or an export that the page doesn't list is found, and a name in the table of further calls that no crate has."""
        public = {crate: public_calls(crate) for crate in OUTER}
        self.assertEqual([crate for crate, calls in public.items() if not calls], [])
        listed = calls_on_the_page()
        for crate, calls in public.items():
            self.assertEqual(calls - listed, set(), crate)
        further = {name for row in table("Crate") for name in TICKED.findall(row[1])}
        self.assertEqual(further - set().union(*public.values()), set())

    def test_all_exports_for_c_are_in_the_table_of_calls(self):
        exports = set(re.findall(r'^pub extern "C" fn (\w+)', text_of("crates/embed/src/lib.rt"), re.M))
        self.assertGreater(len(exports), 5)
        self.assertEqual(exports - {name for name, _ in calls()}, set())

    def test_all_ported_crates_are_trusted(self):
        """What a crate in crates.txt uses, and isn't in crates.txt, is the kit's."""
        lines = [line.partition(":") for line in text_of("crates.txt").splitlines()]
        own = {head.split()[0] for head, _, _ in lines if head}
        ported = {name for _, _, uses in lines for name in uses.split()} - own
        self.assertGreater(len(ported), 5)
        trusted = re.search(r"^- The contracts of its ported crates: .*\n(?:  .*\n)*", text_of(PAGE), re.M)[0]
        self.assertEqual(set(TICKED.findall(trusted)), ported)

    def test_all_crates_with_unsafe_code_are_named(self):
        """Attributes as `#[unsafe(no_mangle)]` are no such code."""
        sources = glob.glob(os.path.join(TOP, "crates/*/src/**/*.rt"), recursive=True)
        found = {
            os.path.relpath(it, TOP).split(os.sep)[1]
            for it in sources
            if re.search(r"\bunsafe (?:\{|impl|fn)", text_of(os.path.relpath(it, TOP)))
        }
        sentence = re.search(r"^Two crates have unsafe code.*$", text_of(PAGE), re.M)[0]
        self.assertEqual(set(TICKED.findall(sentence)), found)

    def test_the_rules_of_the_c_library_are_the_headers(self):
        """The page and the header have as many rules, in the same order, each by its own word."""
        words = ["thread that opened it", "copy", "aligned", "overlap", "signal handler", "one allocator"]
        header = re.search(
            r"rules\. The proofs assume.*?(?=\n \* A function writes)", text_of("clients/c/jentry.h"), re.S
        )[0]
        in_header = re.sub(r"\s*\n \*     ", " ", header).split("\n *   - ")[1:]
        page = re.search(r"### The C library\n.*?\n\n(.*?)\n\n", text_of(PAGE), re.S)[1]
        on_page = page.split("\n")
        for rules in (in_header, on_page):
            self.assertEqual(len(rules), len(words), rules)
            for rule, word in zip(rules, words):
                self.assertIn(word, rule)


class Assurance(unittest.TestCase):
    def test_thirty_calls_or_more_have_all_their_clauses(self):
        listed = calls()
        self.assertGreaterEqual(len(listed), 30)
        for (name, path), clauses in listed.items():
            with self.subTest(call=name):
                self.assertTrue(os.path.exists(os.path.join(TOP, path)), path)
                contract = contract_of(name, path)
                self.assertIsNotNone(contract, f"{path} has no {name}")
                self.assertEqual(sorted(set(clauses)), sorted(set(contract)))

    def test_the_other_calls_of_a_cache_have_the_clauses_of_call_at(self):
        path = "crates/cache/src/calls.rt"
        wanted = contract_of("Cache::call_at", path)
        self.assertEqual(sorted(wanted), ["err", "memory", "ok"])
        may_make = [it for it in wanted if it != "memory"]
        calls = {"invoke": may_make, "get": wanted, "put": may_make, "remove": wanted, "contains_key": wanted}
        for name, clauses in calls.items():
            for form in (name, f"{name}_at"):
                self.assertEqual(contract_of(f"Cache::{form}", path), clauses, form)

    def test_definitions_stand_where_the_tables_say(self):
        named = [(word, spec) for row in table("Call") for word, spec in DEFINITION.findall(row[3])]
        self.assertGreater(len(named), 50)
        for word, spec in named:
            with self.subTest(definition=word):
                self.assertTrue(is_defined(word, spec), spec)

    def test_the_theorem_names_what_is_there(self):
        rows = table("Half-sentence")
        self.assertGreaterEqual(len(rows), 9)
        for row in rows:
            specs = re.findall(r"((?:`\w+`(?:, | and )?)+) (?:in|of) ([a-z_]+/[A-Z]\w+)", row[2])
            self.assertTrue(specs, row[2])
            for words, spec in specs:
                for word in TICKED.findall(words):
                    with self.subTest(definition=word):
                        self.assertTrue(is_defined(word, spec), spec)

    def test_there_are_25_definitions_to_read(self):
        rows = table("Definition")
        self.assertEqual(len(rows), 25)
        for row in rows:
            specs = row[3].split(", ")
            for word in TICKED.findall(row[0]):
                with self.subTest(definition=word):
                    self.assertTrue(any(is_defined(word, spec) for spec in specs), row[3])

    def test_laws_stand_in_their_files(self):
        rows = table("Law")
        self.assertTrue(rows)
        for row in rows:
            path = re.search(r"crates/\S+\.rt", row[0])[0]
            for name in TICKED.findall(row[0]):
                self.assertTrue(contract_of(name, path), f"{path}: {name}")

    def test_edits_are_there_and_counted(self):
        for row in table("Wrong body"):
            crate = None
            for part in re.findall(r"[a-z_]+ (?=`)|`\w+`", row[1]):
                if part.startswith("`"):
                    path = f"crates/{crate}/must-fail/{part.strip('`')}.edit"
                    self.assertTrue(os.path.exists(os.path.join(TOP, path)), path)
                else:
                    crate = part.strip()
        edits = glob.glob(os.path.join(TOP, "crates/*/must-fail/*.edit"))
        folders = {os.path.dirname(it) for it in edits}
        self.assertTrue(
            f"{len(edits)} in {len(folders)} crates" in text_of(PAGE), f"{len(edits)} edits in {len(folders)} crates"
        )

    def test_worked_examples_are_counted(self):
        """The page says how many verdicts and ends are computed."""
        verdicts, calls = (text_of(f"crates/spec_examples/specs/{it}.antt") for it in ("Verdicts", "Rows"))
        first, second = (len(re.findall(rf"^pub \w+ : judge_by {it}", verdicts, re.M)) for it in ("First", "Second"))
        third = len(re.findall(r"^pub \w+ : judge ", verdicts, re.M))
        ends = len(re.findall(r"^pub \w+ : outcome_", calls, re.M))
        found = re.search(
            r"computes (\d+) verdicts by the third profile, (\d+) by the second, (\d+) by the first, and the ends of (\d+) calls",
            text_of(PAGE),
        )
        self.assertEqual(tuple(map(int, found.groups())), (third, second, first, ends))

    def test_tests_are_there(self):
        sources = "".join(
            text_of(os.path.relpath(it, TOP))
            for folder in ("crates/test_*/src", "crates/*/src", "tests/program")
            for kind in ("rt", "py")
            for it in glob.glob(os.path.join(TOP, folder, "**", f"*.{kind}"), recursive=True)
        )
        for row in table("What"):
            for name in TICKED.findall(row[1]):
                if re.fullmatch(r"[a-z_0-9]+", name):
                    with self.subTest(test=name):
                        self.assertRegex(sources, rf"(?:fn|def) (?:test_)?{name}\b")

    def test_the_edit_that_is_shown_is_the_crates(self):
        shown = re.search(r"This one is `(\w+)` of (\w+):\n\n```\n(.*?)```", text_of(PAGE), re.S)
        self.assertEqual(shown[3].split(), text_of(f"crates/{shown[2]}/must-fail/{shown[1]}.edit").split())

    def test_the_sentence_of_the_theorem_is_readmes(self):
        quoted = [
            " ".join(line[2:] for line in text_of(page).split("\n") if line.startswith("> "))
            for page in ("README.md", PAGE)
        ]
        self.assertEqual(quoted[0], quoted[1])
        self.assertIn("an exception changes nothing", quoted[0])


if __name__ == "__main__":
    unittest.main()
