"""clients/c/jentry.h against crates/embed and crates/embedded: the layouts that it declares, and claims that only a proof could carry."""
import os
import re
import shutil
import subprocess
import tempfile
import unittest

from page import text_of

HEADER = "clients/c/jentry.h"
STRUCTS = {
    "jentry_handle": ("crates/embed/src/handle.rt", "Handle"),
    "jentry_verdict": ("crates/embedded/src/numbers.rt", "VerdictNumbers"),
    "jentry_arg": ("crates/embedded/src/numbers.rt", "ArgNumbers"),
    "jentry_call": ("crates/embedded/src/numbers.rt", "CallNumbers"),
    "jentry_done": ("crates/embedded/src/numbers.rt", "DoneNumbers"),
}
"""The struct of the crates that each struct of the header is, with its file."""
TYPES = {"u8": "uint8_t", "u32": "uint32_t", "i32": "int32_t", "i64": "int64_t", "bool": "bool", "*mut ()": "void *"}
RENAMED = {"is_open": "open"}


def fields_of(path, name):
    """Returns the fields of a struct of the crates that C sees, each with its type in C and its length, 1 if it is no array."""
    body = re.search(rf"^#\[repr\(C\)\]\n(?:#.*\n)*pub struct {name} \{{\n(.*?)^\}}", text_of(path), re.M | re.S)[1]
    found = []
    for field, kind in re.findall(r"^    (?:pub )?(\w+): (.*),$", body, re.M):
        array = re.fullmatch(r"\[(\w+); (\d+)\]", kind)
        element, length = (array[1], int(array[2])) if array else (kind, 1)
        found.append((RENAMED.get(field, field), TYPES[element], length))
    return found


def assertions():
    """Returns a C source that compiles exactly if each struct of the header has the fields of the crates' struct in the same places."""
    lines = ['#include "jentry.h"']
    for struct, (path, name) in STRUCTS.items():
        fields = fields_of(path, name)
        declared = "".join(f"{kind} {field}[{length}]; " for field, kind, length in fields)
        lines.append(f"struct core_{name} {{ {declared}}};")
        lines.append(f'_Static_assert(sizeof(struct {struct}) == sizeof(struct core_{name}), "{struct}");')
        for field, _, _ in fields:
            for what in ("offsetof", "sizeof"):
                one, other = (
                    f"offsetof(struct {it}, {field})" if what == "offsetof" else f"sizeof((struct {it} *)0)->{field}"
                    for it in (struct, f"core_{name}")
                )
                lines.append(f'_Static_assert({one} == {other}, "{what} {struct}.{field}");')
    return "\n".join(lines) + "\n"


def compiled(source, header):
    """Compiles a C source against a header. Returns the errors."""
    with tempfile.TemporaryDirectory() as room:
        for name, text in (("layouts.c", source), ("jentry.h", header)):
            with open(os.path.join(room, name), "w", encoding="utf-8") as it:
                it.write(text)
        words = ["cc", "-std=c11", "-Wall", "-Werror", "-fsyntax-only", "layouts.c"]
        return subprocess.run(words, cwd=room, capture_output=True, text=True).stderr


class Header(unittest.TestCase):
    @unittest.skipUnless(shutil.which("cc"), "it needs a C compiler (apt-get install gcc)")
    def test_the_layouts_are_those_of_the_crates(self):
        source, header = assertions(), text_of(HEADER)
        self.assertGreater(source.count("_Static_assert"), 50)
        self.assertEqual(compiled(source, header), "")
        # A header with two fields the other way round is found, though no size changes.
        turned = header.replace("uint32_t outcome, effect;", "uint32_t effect, outcome;")
        self.assertNotEqual(turned, header)
        self.assertIn("offsetof jentry_done.outcome", compiled(source, turned))

    def test_the_functions_are_the_exports(self):
        exports = re.findall(r'^pub extern "C" fn (\w+)', text_of("crates/embed/src/lib.rt"), re.M)
        declared = re.findall(r"^[a-z].*?\b(jentry_\w+)\(", text_of(HEADER), re.M)
        self.assertGreater(len(exports), 5)
        self.assertEqual(sorted(declared), sorted([*exports, "jentry_refusal_name", "jentry_exception_name"]))

    def test_a_handle_stays_on_its_thread_unless_send_is_proved(self):
        """The kit lets C pass a handle to another thread only if `Send` is proved of its type."""
        is_proved = re.search(r"\bSend for Handle\b", text_of("crates/embed/src/handle.rt")) is not None
        self.assertEqual("stays on the thread that opened it" in text_of(HEADER), not is_proved)
        self.assertNotIn("any threads", text_of(HEADER))

    def test_no_byte_is_promised_that_closing_leaves(self):
        """`take` closes a handle. Unless it clears the pointer, too, the header may not say that the bytes are zero."""
        taken = re.search(r"fn take\b.*?\n    \}\n", text_of("crates/embed/src/handle.rt"), re.S)[0]
        self.assertIn("self.is_open = false;", taken)
        if "self.at = " not in taken:
            self.assertNotRegex(text_of(HEADER), r"zero[^.]*after jentry_close|after jentry_close[^.]*zero")
