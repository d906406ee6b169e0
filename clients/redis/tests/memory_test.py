"""Tests that memory comes back: of classes that are forgotten, that are too costly to be kept, and that a load replaces.

JENTRY_FORGOTTEN is the number of classes of each kind.
"""
import os

from module_test import ModuleTest
from servers import ReplyError, Server, class_file, wait_for

COUNT = int(os.environ.get("JENTRY_FORGOTTEN", 5_000))
LOADS = 100
PIPE = 100
MOST_GROWTH = 600_000
"""The bytes that may stay, of whatever number of classes."""


def used_memory(line):
    return int(line.info("memory")["used_memory"])


class Memory(ModuleTest):
    def grows_little(self, line, what):
        """Runs an action twice, first to fill what is kept once, and checks that the second time leaves no memory."""
        what()
        before = used_memory(line)
        what()
        self.assertLess(used_memory(line) - before, MOST_GROWTH)

    def send_often(self, line, *commands):
        """Sends commands in turn, COUNT times each, and returns the set of the replies' types."""
        kinds = set()
        for _ in range(COUNT // PIPE):
            for _ in range(PIPE):
                for words in commands:
                    line.send(*words)
            kinds |= {type(line.take()) for _ in range(PIPE * len(commands))}
        return kinds

    def test_of_forgotten_classes(self):
        with Server() as server, server.open() as line:
            add, file = self.define(line, "Add"), class_file("Plus")
            plus = self.define(line, "Plus")
            forgets = ("JENTRY.FORGET", plus)

            def act():
                self.assertEqual(self.send_often(line, forgets, ("JENTRY.DEFINE", file)), {int, list})

            self.grows_little(line, act)
            self.assertEqual(line.get("JENTRY.INVOKE", add, "v:1", 5), 5)
            self.assertEqual(line.get("JENTRY.INVOKE", plus, "v:1"), 6)
            self.assertEqual(len(line.get("JENTRY.LIST")), 2)

    def test_of_costly_classes(self):
        with Server(arguments=("max-steps", 20)) as server, server.open() as line:
            plus, costly = self.define(line, "Plus"), ("JENTRY.DEFINE", class_file("Add"))
            self.grows_little(line, lambda: self.assertEqual(self.send_often(line, costly), {ReplyError}))
            line.get("SET", "v:1", 41)
            self.assertEqual(line.get("JENTRY.INVOKE", plus, "v:1"), 42)
            self.assertEqual(len(line.get("JENTRY.LIST")), 1)

    def test_of_classes_that_are_loaded(self):
        with Server("--enable-debug-command", "yes") as server, server.open() as line:
            files = [class_file("Plus").replace(b"\1\0\3Row", b"\1\0\7Row%04d" % number) for number in range(50)]
            ids = [line.get("JENTRY.DEFINE", file)[0] for file in files]

            def act():
                for _ in range(LOADS):
                    line.get("DEBUG", "RELOAD")

            self.grows_little(line, act)
            self.assertEqual(line.get("JENTRY.EXISTS", *ids), [1] * len(ids))
            line.get("SET", "v:1", 41)
            self.assertEqual(line.get("JENTRY.INVOKE", ids[7], "v:1"), 42)

    def test_a_class_runs_on_after_others_were_forgotten(self):
        """An engine of the module ends after some hundred classes that it forgot, and the others run in the next one."""
        with Server("--appendonly", "yes") as server, Server() as replica, server.open() as line:
            add, plus, file = self.define(line, "Add"), self.define(line, "Plus"), class_file("Ratio")
            with replica.open() as other:
                other.get("REPLICAOF", "127.0.0.1", server.port)
                wait_for(lambda: other.info("replication").get("master_link_status") == "up", "the link")
                for number in range(600):
                    ratio = line.get("JENTRY.DEFINE", file)[0]
                    self.assertEqual(line.get("JENTRY.INVOKE", add, "v:1", 1), number + 1)
                    self.assertEqual(line.get("JENTRY.FORGET", ratio), 1)
                self.assertEqual(line.get("JENTRY.INVOKE", plus, "v:1"), 601)
                self.assertIsInstance(line.ask("JENTRY.INVOKE", ratio, "v:1"), ReplyError)
                line.get("WAIT", 1, 10_000)
                self.assertEqual(other.get("JENTRY.EXISTS", add, plus, ratio), [1, 1, 0])
            line.get("MULTI")
            line.ask("JENTRY.INVOKE", add, "v:1", 1)
            for _ in range(300):
                line.ask("JENTRY.DEFINE", file)
                line.ask("JENTRY.FORGET", ratio)
            line.ask("JENTRY.INVOKEALL", add, 2, "v:1", "v:1", 1)
            self.assertEqual(line.get("EXEC")[-1], [603, 604])
            server.restart()
            with server.open() as again:
                self.assertEqual(again.get("JENTRY.INVOKE", add, "v:1", 1), 605)
