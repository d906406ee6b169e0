#!/usr/bin/env python3
"""generate: writes what the clients and the pages have of the tables in protocol/.

usage: protocol/generate.py --check|--write [FOLDER]

--write brings the generated files, and the generated parts of others, up to the tables. --check changes nothing: it prints a line for each file that
differs, and the status is 1 if there is one. FOLDER is the top of the repository, by default that of this file.

A generated part begins with a comment that names its tables and this command, and ends with the comment `end of the generated part`.
"""
import json
import os
import re
import sys

BY = "protocol/generate.py --write"
ALL = "the tables in protocol/"
HERE = os.path.dirname(os.path.abspath(__file__))
END = "end of the generated part"
REFUSED = "../examples/refused"
WITHOUT_END = slice(0, -1)
"""The kinds of requests and replies but the end of a round, which is the last one."""
PYTHON_WIDTH, RUST_WIDTH, JAVA_WIDTH, C_WIDTH = 120, 100, 120, 116
JAVA_REFUSALS = """\
// Generated from the tables in protocol/ by <BY>.
package jentry.jcache.impl;

import java.util.HashMap;
import java.util.Map;

/** The reasons for which the server refuses a class, in the order of their numbers, each with what to do about it. */
public enum Refusal {
<REFUSALS>;

    private static final Refusal[] ALL = values();
    private static final Map<Integer, String> OPCODES = new HashMap<>();
    private static final String OTHER_OPCODE =
        <OTHERS>;

    static {
<OPCODES>
    }

    private final String title;
    private final String remedy;

    Refusal(String title, String remedy) {
        this.title = title;
        this.remedy = remedy;
    }

    private static void add(String remedy, int... opcodes) {
        for (int opcode : opcodes) {
            OPCODES.put(opcode, remedy);
        }
    }

    /** Returns the server's name of a refusal number. */
    public static String title(int number) {
        return number > 0 && number <= ALL.length ? ALL[number - 1].title : "refusal " + number;
    }

    /** Returns what to do instead, in the words of {@code jentry explain}, or an empty string for an unknown number. */
    public static String remedy(int number, int detail) {
        if (number == OUTSIDE_PROFILE.number()) {
            return OPCODES.getOrDefault(detail, OTHER_OPCODE);
        }
        return number > 0 && number <= ALL.length ? ALL[number - 1].remedy : "";
    }

    /** Returns the server's number, from 1. */
    public int number() {
        return ordinal() + 1;
    }
}
"""
"""The Java client's enum of refusals, but for its rows."""


class Tables:
    """The tables of a folder: each has the rows of a file, as cells by the names in its first line."""

    def __init__(self, folder):
        self._folder = folder

    def __getattr__(self, name):
        with open(os.path.join(self._folder, "protocol", name + ".tsv"), encoding="utf-8") as it:
            head, *rows = [line.rstrip("\n").split("\t") for line in it]
        for number, row in enumerate(rows, 2):
            if len(row) != len(head):
                sys.exit(f"protocol/{name}.tsv:{number}: {len(row)} cells, and not {len(head)}")
        return [dict(zip(head, row)) for row in rows]

    def names(self, table):
        """Returns the names of a table, which are in the order of their numbers, from 1."""
        rows = getattr(self, table)
        if [row["number"] for row in rows] != [str(number) for number in range(1, len(rows) + 1)]:
            sys.exit(f"protocol/{table}.tsv: the numbers don't go from 1 up")
        return [row["name"] for row in rows]


def plain(text):
    """Returns a cell of a page as plain text."""
    return text.replace("`", "")


def quoted(text):
    return json.dumps(text, ensure_ascii=False)


def lines_of(words, width):
    """Returns words on lines of at most a width, each with a comma after it."""
    lines = [""]
    for word in words:
        longer = (lines[-1] + " " + word + ",").lstrip()
        if len(longer) <= width or not lines[-1]:
            lines[-1] = longer
        else:
            lines.append(word + ",")
    return lines


def python_list(opening, words, closing):
    """Returns a list of Python as `black` writes it: on one line, or its words on one, or each on its own."""
    body = ", ".join(words)
    if len(opening + body + closing) <= PYTHON_WIDTH:
        return [opening + body + closing]
    if len(body) + 4 <= PYTHON_WIDTH:
        return [opening, "    " + body, closing]
    return [opening, *(f"    {it}," for it in words), closing]


def python_tuple(name, items):
    return python_list(f"{name} = (", ["None" if it is None else quoted(it) for it in items], ")")


def python_dict(name, items):
    return python_list(f"{name} = {{", [f"{key}: {quoted(it)}" for key, it in items.items()], "}")


def rust_array(name, items):
    """Returns an array of Rust as rustfmt writes it: on one line, or its items on the next, or each on its own."""
    words = [quoted(it) for it in items]
    head, body = f"pub const {name}: [&str; {len(items)}] =", f"[{', '.join(words)}];"
    if len(head + body) + 1 <= RUST_WIDTH:
        return [f"{head} {body}"]
    if len(body) + 4 <= RUST_WIDTH:
        return [head, "    " + body]
    return [head + " [", *(f"    {it}," for it in words), "];"]


def rust_numbers(module, rows):
    return [f"pub mod {module} {{", *(f"    pub const {it['constant']}: u8 = {it['number']};" for it in rows), "}"]


def c_strings(name, items):
    body = lines_of([quoted(it) for it in items], C_WIDTH)
    return [f"static const char *const {name}[] = {{", *("    " + it for it in body), "};"]


def js_object(name, items):
    return [
        f"  {name}: {{",
        *("    " + it for it in lines_of([f"{key}: {quoted(it)}" for key, it in items.items()], C_WIDTH)),
        "  },",
    ]


def page_table(head, rows):
    """Returns a table of a page."""
    lines = [f"| {' | '.join(row)} |".replace("  ", " ") for row in [head, *rows]]
    return [lines[0], "|---" * len(head) + "|", *lines[1:]]


def java_constant(name):
    """Returns TOO_LARGE of TooLarge."""
    return re.sub(r"(?<=[a-z])(?=[A-Z])", "_", name).upper()


def java_text(text, indent):
    """Returns a text as literals of Java on lines of at most JAVA_WIDTH, of which the later ones are indented by four more."""
    lines, words = [""], text.split(" ")
    for at, word in enumerate(words):
        longer = lines[-1] + word + " " * (at + 1 < len(words))
        if len(quoted(longer)) + indent + 8 <= JAVA_WIDTH:
            lines[-1] = longer
        else:
            lines.append(word + " " * (at + 1 < len(words)))
    return ("\n" + " " * (indent + 4) + "+ ").join(quoted(it) for it in lines)


def java_strings(name, items):
    """Returns an array of texts that is a field of a class."""
    return [f"private static final String[] {name} =", f"    {{{', '.join(quoted(it) for it in items)}}};"]


def java_numbers(tables):
    """Returns the fields with the kinds and the limits."""

    def numbers(access, rows):
        words = [f"{row['constant']} = {row['number']}" for row in rows]
        first, *rest = lines_of(words, JAVA_WIDTH - 30)
        return "\n".join([f"{access}static final int {first}", *("    " + it for it in rest)]).rstrip(",") + ";"

    text = ["/** The kinds of requests. */", numbers("public ", tables.requests), "", "/** The kinds of replies. */"]
    text += [
        numbers("", tables.replies),
        "",
        "/** The kinds of values in arguments and results. */",
        numbers("", tables.values),
    ]
    for row in tables.limits:
        text += ["", f"/** {row['counts']} */", f"static final int {row['name']} = {int(row['value']):_};"]
    return "\n".join(text).split("\n")


def java_arms(rows):
    """Returns the arms of a switch by the number of an exception."""
    return [f"case {row['number']}: return new {row['name']}(message);" for row in rows]


def numbers_in(text):
    """Returns the numbers of a list such as `51-53, 188`."""
    found = [[int(it) for it in part.split("-")] for part in text.split(", ")]
    return [number for ends in found for number in range(ends[0], ends[-1] + 1)]


def java_refusals(tables):
    """Returns the Java client's enum of refusals."""
    refusals = []
    for row in tables.refusals:
        remedy = f",\n        {java_text(row['remedy'], 8)}" if row["remedy"] else ', ""'
        refusals.append(f"    {java_constant(row['name'])}({quoted(row['name'])}{remedy})")
    others = [row for row in tables.opcodes if row["opcodes"] == "others"]
    opcodes = [
        f"        add({java_text(row['remedy'], 24)}, {', '.join(map(str, numbers_in(row['opcodes'])))});"
        for row in tables.opcodes
        if row not in others
    ]
    text = JAVA_REFUSALS.replace("<REFUSALS>", ",\n".join(refusals)).replace("<OPCODES>", "\n".join(opcodes))
    return text.replace("<OTHERS>", java_text(others[0]["remedy"], 8)).replace("<BY>", BY).rstrip("\n").split("\n")


def python_module(tables):
    """Returns the Python client's module of the names, kinds and limits."""
    lines = [f"# Generated from {ALL} by {BY}.", '"""The numbers of the protocol, with their names, and its limits."""']
    for table in ("refusals", "exceptions", "denials"):
        lines += python_tuple(table.upper(), [None, *tables.names(table)])
    for table, what in (
        ("requests", "a request"),
        ("replies", "a reply"),
        ("outcomes", "an outcome"),
        ("values", "a value"),
    ):
        lines += ["", f"# The kinds of {what}."]
        lines += [f"{row['constant']} = {row['number']}" for row in getattr(tables, table)]
    lines.append("")
    for row in tables.limits:
        lines += [f"{row['name']} = {int(row['value']):_}", f'"""{row["counts"]}"""']
    return lines


def rust_module(tables):
    """Returns the front's module of the names, kinds and limits."""
    lines = [f"//! Generated from {ALL} by `{BY}`: the numbers of the protocol.", ""]
    for row in tables.limits:
        lines += [f"/// {row['counts']}", f"pub const {row['name']}: usize = {int(row['value']):_};", ""]
    for table, what in (("requests", "requests"), ("replies", "replies")):
        labels = [row["constant"].lower() for row in getattr(tables, table)[WITHOUT_END]]
        lines += [f"/// The names of the kinds of {what} but the end of a round, by number."]
        lines += [*rust_array(table.upper(), ["", *labels]), ""]
    for table, what in (
        ("denials", "the reasons for which the server or the front doesn't run a request"),
        ("exceptions", "the ways in which a processor ends without a result"),
        ("refusals", "the reasons for which the server refuses a class"),
    ):
        lines += [f"/// The names of {what}, by number.", *rust_array(table.upper(), ["", *tables.names(table)]), ""]
    for table, what in (
        ("requests", "requests"),
        ("replies", "replies"),
        ("outcomes", "outcomes"),
        ("values", "values in arguments and results"),
    ):
        lines += [f"/// The kinds of {what}.", "#[allow(dead_code)]", *rust_numbers(table, getattr(tables, table)), ""]
    return lines[:-1]


def redis_module(tables):
    """Returns the Redis module's names of refusals and exceptions."""
    lines = [f"//! Generated from {ALL} by `{BY}`: the names of the core's numbers."]
    for table in ("refusals", "exceptions"):
        lines += [
            "",
            f"/// The names of the {table}, from number 1 on.",
            *rust_array(table.upper(), tables.names(table)),
        ]
    return lines


def example_names(tables):
    """Returns the numbers that the example client names."""
    lines = []
    for name, table in (("FAULTS", "exceptions"), ("DENIALS", "denials")):
        lines += python_dict(name, dict(enumerate(tables.names(table), 1)))
    return lines


def meanings(tables):
    """Returns the meanings of exceptions, denials and refusals on the front's own page, by their numbers."""
    lines = []
    for kind, table, cell in (
        ("exception", "exceptions", "where"),
        ("denial", "denials", "front"),
        ("refusal", "refusals", "cause"),
    ):
        lines += js_object(kind, {row["number"]: plain(row[cell]) for row in getattr(tables, table)})
    return ["const MEANING = {", *lines, "};"]


def c_names(tables):
    lines = []
    for table in ("refusals", "exceptions"):
        lines += [*c_strings(table, tables.names(table)), ""]
    return lines[:-1]


def with_examples(row):
    """Returns the name of a refusal, with links to its examples."""
    links = [it.rpartition("=") for it in row["examples"].split(", ") if it]
    if len(links) == 1 and not links[0][0]:
        return f"[{row['name']}]({REFUSED}/{links[0][2]}.java)"
    return row["name"] + ": " * bool(links) + ", ".join(f"[{text}]({REFUSED}/{file}.java)" for text, _, file in links)


def refusals_page(tables):
    rows = [(it["number"], with_examples(it), it["cause"], it["instead"]) for it in tables.refusals]
    return page_table(("N", "Name", "Cause", "The way round"), rows)


def opcodes_page(tables):
    rows = [
        (it["shown"], re.sub(r"\((\w+)\)", rf"({REFUSED}/\1.java)", it["java"]), it["instead"])
        for it in tables.opcodes
        if it["shown"]
    ]
    rows.sort(key=lambda row: int(re.match(r"\d+", row[0])[0]))
    return page_table(("Opcode", "Java", "The way round"), rows)


def page(table, head, cells):
    """Returns a function that gives a table as lines of a page: these columns, under these heads."""
    return lambda tables: page_table(head, [[row[it] for it in cells] for row in getattr(tables, table)])


KINDS = ("name", "number", "body")
EXCEPTIONS = page("exceptions", ("Exception", "Name", "Where"), ("number", "name", "where"))
DENIALS = page("denials", ("Denial", "Name", "When"), ("number", "name", "when"))
JAVA = "clients/java/src/jentry/jcache"
FILES = {
    "clients/python/jentry/tables.py": python_module,
    "clients/front/src/protocol.rs": rust_module,
    "clients/redis/src/protocol.rs": redis_module,
    f"{JAVA}/impl/Refusal.java": java_refusals,
}
"""The files that are generated as a whole, by their paths."""
PARTS = {
    ("clients/c/names.c", "*"): c_names,
    ("clients/front/src/http/page.html", "*"): meanings,
    (f"{JAVA}/impl/ProcessorFaults.java", "exceptions"): lambda tables: java_arms(tables.exceptions),
    (f"{JAVA}/stream/Outcome.java", "denials"): lambda tables: java_strings("DENIALS", ["", *tables.names("denials")]),
    (f"{JAVA}/stream/Wire.java", "*"): java_numbers,
    ("docs/PROCESSORS.md", "exceptions"): EXCEPTIONS,
    ("docs/PROCESSORS.md", "opcodes"): opcodes_page,
    ("docs/PROCESSORS.md", "refusals"): refusals_page,
    ("docs/PROTOCOL.md", "denials"): DENIALS,
    ("docs/PROTOCOL.md", "exceptions"): EXCEPTIONS,
    ("docs/PROTOCOL.md", "outcomes"): page("outcomes", ("Outcome", "Kind", "Body"), KINDS),
    ("docs/PROTOCOL.md", "replies"): page("replies", ("Reply", "Kind", "Body"), KINDS),
    ("docs/PROTOCOL.md", "requests"): page("requests", ("Request", "Kind", "Body", "Reply"), (*KINDS, "reply")),
    ("docs/PROTOCOL.md", "values"): page("values", ("Argument", "Kind", "Body"), KINDS),
    ("examples/frames.py", "*"): example_names,
}
"""The files that have a generated part, by their paths and the name of the table, or `*` for several."""


def begin(table):
    """Returns the words with which a generated part begins."""
    return f"generated from {ALL if table == '*' else f'protocol/{table}.tsv'} by {BY}"


def with_part(path, text, table, lines):
    """Returns the text of a file with another generated part. The lines get the indentation of the part's first comment."""
    pattern = rf"(?ms)^( *)([^\n]*{re.escape(begin(table))}[^\n]*\n).*?(^[^\n]*{END})"
    found = re.search(pattern, text)
    if not found:
        sys.exit(f"{path}: there is no comment `{begin(table)}`, or none with `{END}` after it")
    body = "".join((found[1] + line).rstrip() + "\n" for line in lines)
    return text[: found.start()] + found[1] + found[2] + body + found[3] + text[found.end() :]


def read(folder, path):
    try:
        with open(os.path.join(folder, path), encoding="utf-8") as it:
            return it.read()
    except FileNotFoundError:
        return ""


def generated(folder):
    """Returns the texts that the files should have, by their paths."""
    tables = Tables(folder)
    texts = {path: "\n".join(made(tables)) + "\n" for path, made in FILES.items()}
    for (path, table), made in PARTS.items():
        text = texts[path] if path in texts else read(folder, path)
        texts[path] = with_part(path, text, table, made(tables))
    return texts


def differing(folder):
    """Returns the texts that the files should have and don't, by their paths."""
    return {path: text for path, text in sorted(generated(folder).items()) if read(folder, path) != text}


def check(folder):
    """Prints the files that differ from the tables. Returns the status."""
    wrong = differing(folder)
    for path in wrong:
        print(f"{path} differs from the tables in protocol/: run {BY}")
    return 1 if wrong else 0


def write(folder):
    """Writes the files that differ from the tables, and prints their paths. Returns the status."""
    for path, text in differing(folder).items():
        with open(os.path.join(folder, path), "w", encoding="utf-8") as it:
            it.write(text)
        print(path)
    return 0


def main(words):
    commands = {"--check": check, "--write": write}
    if len(words) not in (1, 2) or words[0] not in commands:
        sys.exit(__doc__)
    return commands[words[0]](words[1] if len(words) == 2 else os.path.dirname(HERE))


if __name__ == "__main__":
    sys.exit(main(sys.argv[1:]))
