"""Runs with a second module that deletes, overwrites, expires or renames an entry while Redis tells it that the module has set the entry."""
import os
import shutil
import subprocess
import tempfile
import unittest

from module_test import ModuleTest
from servers import HERE, Server, wait_for

CC = shutil.which("cc")
CHECKS = 64
"""The number of direct reads that are held to GET: until then each write is a SET."""
ROUNDS = 20
AFTER = {
    "nothing": [b"20001", None],
    "delete": [None, None],
    "overwrite": [b"777777", None],
    "expire": [None, None],
    "rename": [None, b"20001"],
}
"""What the neighbour does, and the values of the entry and of `renamed:1` after it."""


def sanitizer():
    """Returns the path of the address sanitizer of cc, or None."""
    told = subprocess.run([CC, "-print-file-name=libasan.so"], stdout=subprocess.PIPE, text=True, check=True).stdout
    return os.path.realpath(told.strip()) if os.path.isabs(told) else None


@unittest.skipIf(CC is None, "there is no cc (apt-get install gcc libc6-dev)")
class Neighbour(ModuleTest):
    variables = {}
    """The environment of the server."""
    arguments = ()
    """The module's words."""

    def setUp(self):
        self.folder = tempfile.mkdtemp(prefix="jentry-neighbour-")
        self.addCleanup(shutil.rmtree, self.folder)
        self.neighbour = self.library("neighbour")

    def library(self, name):
        """Compiles a C file of this folder, and returns the path of the library."""
        built = os.path.join(self.folder, name + ".so")
        subprocess.run([CC, "-shared", "-fPIC", "-o", built, os.path.join(HERE, name + ".c")], check=True)
        return built

    def server(self, *options):
        server = Server(*options, "--loadmodule", self.neighbour, arguments=self.arguments, variables=self.variables)
        self.addCleanup(server.__exit__)
        return server

    def writes_itself(self, line):
        """Returns whether the module writes entries itself, so that what others do at the event is logged behind the write. What they do at the
        event of a SET is logged ahead of it."""
        return self.is_known(line) or "raw" in self.arguments

    def warm(self, line, add):
        line.get("SET", "warm:1", 1)
        for _ in range(CHECKS):
            line.get("JENTRY.INVOKE", add, "warm:1", 1)

    def change(self, line, what, *words):
        """Runs a command on an entry, of which the neighbour hears. Returns the entry and `renamed:1` after it."""
        line.get("NEIGHBOUR.DO", "nothing")
        line.get("DEL", "renamed:1")
        line.get("SET", "v:1", 20_000)
        line.get("NEIGHBOUR.DO", what)
        told = line.get(*words)
        self.assertEqual(told if isinstance(told, int) else told[0], 20_001)
        return line.get("MGET", "v:1", "renamed:1")

    def test_an_entry_that_changes_at_its_event(self):
        server, replica = self.server("--appendonly", "yes", "--appendfsync", "always"), self.server()
        with server.open() as line, replica.open() as other:
            other.get("REPLICAOF", "127.0.0.1", server.port)
            wait_for(lambda: other.info("replication").get("master_link_status") == "up", "the link")
            add = self.define(line, "Add")
            self.warm(line, add)
            plus = self.define(line, "Plus")
            for what, after in AFTER.items():
                for _ in range(ROUNDS):
                    for words in (["JENTRY.INVOKE", add, "v:1", 1], ["JENTRY.DETAIL", plus, "v:1"]):
                        self.assertEqual(self.change(line, what, *words), after, what)
                self.assertEqual(line.ask("WAIT", 1, 60_000), 1)
                if self.writes_itself(line):
                    self.assertEqual(other.get("MGET", "v:1", "renamed:1"), after, what)
            line.get("NEIGHBOUR.DO", "nothing")
        for what, after in AFTER.items():
            with server.open() as line:
                self.assertEqual(self.change(line, what, "JENTRY.INVOKE", add, "v:1", 1), after, what)
                writes_itself = self.writes_itself(line)
            server.restart()
            with server.open() as line:
                if writes_itself:
                    self.assertEqual(line.get("MGET", "v:1", "renamed:1"), after, what)
                self.warm(line, add)
        self.assertNotIn("AddressSanitizer", server.log())

    def test_a_new_entry_that_changes_at_its_event(self):
        server = self.server("--appendonly", "yes", "--appendfsync", "always")
        with server.open() as line:
            add = self.define(line, "Add")
            self.warm(line, add)
            for what, after in AFTER.items():
                for value in (5, 20_001):
                    line.get("DEL", "v:1", "renamed:1")
                    line.get("NEIGHBOUR.DO", what)
                    self.assertEqual(line.get("JENTRY.INVOKE", add, "v:1", value), value)
                    line.get("NEIGHBOUR.DO", "nothing")
                    after = [b"%d" % value if told == b"20001" else told for told in AFTER[what]]
                    self.assertEqual(line.get("MGET", "v:1", "renamed:1"), after, what)
        self.assertNotIn("AddressSanitizer", server.log())

    def test_several_keys_that_change_at_their_events(self):
        server = self.server("--appendonly", "yes", "--appendfsync", "always")
        with server.open() as line:
            add = self.define(line, "Add")
            self.warm(line, add)
            for what in AFTER:
                line.get("NEIGHBOUR.DO", "nothing")
                for number in range(ROUNDS):
                    line.get("SET", f"v:{number}", 20_000)
                line.get("NEIGHBOUR.DO", what)
                keys = [f"v:{number % ROUNDS}" for number in range(2 * ROUNDS)]
                told = line.get("JENTRY.INVOKEALL", add, len(keys), *keys, 1)
                self.assertEqual(told[:ROUNDS], [20_001] * ROUNDS)
                second = {"nothing": 20_002, "overwrite": 777_778}.get(what, 1)
                self.assertEqual(told[ROUNDS:], [second] * ROUNDS, what)
        self.assertNotIn("AddressSanitizer", server.log())


class NeighbourAndSanitizer(Neighbour):
    """The same on servers with the allocator of the address sanitizer, which overwrites freed memory."""

    def setUp(self):
        super().setUp()
        library = sanitizer()
        if library is None:
            self.skipTest("there is no address sanitizer (apt-get install libgcc-12-dev)")
        rules = "detect_leaks=0:abort_on_error=1:verify_asan_link_order=0:max_free_fill_size=65536:free_fill_byte=90"
        self.variables = {"LD_PRELOAD": self.library("preload") + " " + library, "ASAN_OPTIONS": rules}
        try:
            Server(module=False, variables=self.variables).__exit__()
        except RuntimeError:
            self.skipTest("this server doesn't start with the address sanitizer")


class NeighbourAndRaw(Neighbour):
    """The same where the module writes raw strings."""

    arguments = ("direct", "no", "raw", "yes")


class NeighbourAndRawAndSanitizer(NeighbourAndSanitizer):
    arguments = NeighbourAndRaw.arguments


if __name__ == "__main__":
    unittest.main()
