"""Reads tables and code blocks of a page, and contracts and definitions of the crates, for the tests of the pages."""
import functools
import os
import re

TOP = os.path.dirname(os.path.dirname(os.path.dirname(os.path.abspath(__file__))))
FENCE = "```"
TICKED = re.compile(r"`([^`]+)`")


@functools.lru_cache(maxsize=None)
def text_of(path):
    with open(os.path.join(TOP, path), encoding="utf-8") as it:
        return it.read()


def lines_of(page):
    """Yields the lines of a page outside its code blocks, each with its number from 1."""
    inside = False
    for number, line in enumerate(text_of(page).split("\n"), 1):
        if line.startswith(FENCE):
            inside = not inside
        elif not inside:
            yield number, line


def tables_of(page):
    """Returns the tables of a page, each as the cells of its head and those of its rows."""
    tables, rows = [], None
    for _, line in lines_of(page):
        if not line.startswith("|"):
            rows = None
            continue
        cells = [cell.strip() for cell in line.strip("|").split("|")]
        if rows is None:
            rows = []
            tables.append((cells, rows))
        elif not re.fullmatch(r"[-: ]*", "".join(cells)):
            rows.append(cells)
    return tables


def contract_of(name, path):
    """Returns the names of the clauses of a function, `(unnamed)` for one without a name; None if the file has no such function. `A::b` is b of an
    impl of A."""
    kind, _, function = name.rpartition("::")
    inside, found = "", None
    for line in text_of(path).split("\n"):
        start = re.match(r"impl\b[^{]*?(\w+)(?:<[^{]*>)? \{", line)
        if start:
            inside = start[1]
        elif line == "}":
            inside = ""
        if found is None:
            if re.match(rf'\s*(?:pub )?(?:extern "C" )?fn {function}\b', line) and (not kind or inside == kind):
                found = []
        elif line.strip() in ("{", "{}"):
            return found
        else:
            clause = re.match(r"\s*ensures (?:(\w+) )?\{", line)
            if clause:
                found.append(clause[1] or "(unnamed)")
    return found


def is_defined(word, spec):
    """Returns whether a file of definitions, such as `verdict/Verdict`, defines or declares a word."""
    crate, _, file = spec.partition("/")
    path = f"crates/{crate}/specs/{file}.antt"
    if not os.path.exists(os.path.join(TOP, path)):
        return False
    return (
        re.search(
            rf"^(?:(?:unfoldable )?(?:abbrev )?(?:pub )?(?:record |data )?|  (?:pub )?){re.escape(word)}\b",
            text_of(path),
            re.M,
        )
        is not None
    )


@functools.lru_cache(maxsize=None)
def words_of_code():
    """Returns all words in the crates' sources, definitions and edits."""
    found = set()
    for folder, folders, files in os.walk(os.path.join(TOP, "crates")):
        folders[:] = [it for it in folders if it not in ("out", "proofs")]
        for file in files:
            if file.endswith((".rt", ".antt", ".edit")):
                with open(os.path.join(folder, file), encoding="utf-8") as it:
                    found.update(re.findall(r"\w+", it.read()))
    return found


def rows_of(table):
    """Returns the rows of a table in protocol/: their cells by the names in the first line."""
    lines = [line.split("\t") for line in text_of(f"protocol/{table}.tsv").rstrip("\n").split("\n")]
    return [dict(zip(lines[0], line)) for line in lines[1:]]
