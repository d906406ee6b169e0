"""Tests the counts of INFO, and the setting for the maximum number of steps of a class."""
from commands_test import OneServer
from module_test import ModuleTest
from servers import ReplyError, Server, class_file, wait_for


class Counted(OneServer):
    def test_info(self):
        with Server() as server, server.open() as line:
            add, file = self.define(line, "Add"), class_file("Add")
            line.ask("JENTRY.INVOKE", add, "v:1", 5)
            line.ask("JENTRY.INVOKE", add, "v:1", 5)
            line.ask("JENTRY.INVOKE", add, "v:1")
            line.ask("JENTRY.INVOKE", add, "v:1", "1i")
            line.ask("JENTRY.INVOKE", add, "v", 1)
            line.ask("JENTRY.DEFINE", class_file("refused/Loop"))
            line.ask("JENTRY.DEFINE", class_file("refused/Loop"))
            line.ask("JENTRY.DEFINE", class_file("refused/Text"))
            told = {name: int(value) for name, value in line.info("jentry").items()}
            self.assertEqual(
                {name: value for name, value in told.items() if value},
                {
                    "jentry_classes": 1,
                    "jentry_class_bytes": len(file),
                    "jentry_runs_total": 4,
                    "jentry_steps_total": 23 + 29 + told_steps(told),
                    "jentry_exceptions_2_total": 1,
                    "jentry_exceptions_4_total": 1,
                    "jentry_refusals_20_total": 2,
                    "jentry_refusals_17_total": 1,
                },
            )
            self.assertLess(told_steps(told), 2 * 29)
            self.assertEqual(len(told), 4 + 10 + 30 + 1)
            line.get("JENTRY.FORGET", add)
            self.assertEqual(line.info("jentry")["jentry_class_bytes"], "0")

    def test_runs_that_return_a_boolean_are_counted(self):
        with Server() as server, server.open() as line:
            reserve = self.define(line, "Reserve")
            line.get("SET", "v:1", 41)
            for word, wanted in (("true", 1), ("false", 1)):
                self.assertEqual(line.get("JENTRY.INVOKE", reserve, "v:1", 40, word), wanted)
            told = line.info("jentry")
            self.assertEqual((told["jentry_runs_total"], told["jentry_steps_total"]), ("2", str(48 + 51)))

    def test_memory_is_redis_own(self):
        with Server() as server, server.open() as line:
            before = int(line.info("memory")["used_memory"])
            plus = class_file("Plus").replace(b"\1\0\3Row", b"\1\0\7Row0000")
            large = [plus.replace(b"Row0000", b"Row%04d" % number) for number in range(2000)]
            for file in large:
                line.get("JENTRY.DEFINE", file)
            grown = int(line.info("memory")["used_memory"]) - before
            self.assertGreater(grown, sum(map(len, large)))

    def test_a_crash_report_has_the_counts(self):
        with Server("--enable-debug-command", "yes") as server, server.open() as line:
            line.get("JENTRY.INVOKE", self.define(line, "Add"), "v:1", 5)
            line.send("DEBUG", "PANIC")
            wait_for(lambda: server.process.poll() is not None, "the end of the server")
            self.assertIn("jentry_runs_total:1", server.log())
            self.assertIn("jentry_classes:1", server.log())


def told_steps(told):
    """Returns the total steps of the two runs that threw."""
    return told["jentry_steps_total"] - 23 - 29


class Costly(ModuleTest):
    def test_argument_and_config(self):
        with Server(arguments=("max-steps", 28)) as server, server.open() as line:
            self.fails(
                line.ask("JENTRY.DEFINE", class_file("Add")),
                "COSTLY steps 29, and this server takes 28 (jentry.max-steps)",
            )
            self.assertEqual(line.get("JENTRY.LIST"), [])
            self.assertEqual(line.info("jentry")["jentry_costly_total"], "1")
            self.assertEqual(line.get("CONFIG", "GET", "jentry.max-steps"), [b"jentry.max-steps", b"28"])
            self.assertEqual(line.get("CONFIG", "SET", "jentry.max-steps", 29), b"OK")
            add = self.define(line, "Add")
            self.assertEqual(line.get("CONFIG", "SET", "jentry.max-steps", 1), b"OK")
            self.assertEqual(line.ask("JENTRY.INVOKE", add, "v:1", 1), 1)
            self.assertEqual(self.define(line, "Add"), add)
            for number in (0, 4_000_001, "x"):
                self.assertIsInstance(line.ask("CONFIG", "SET", "jentry.max-steps", number), ReplyError)

    def test_several_keys_are_held_to_it_together(self):
        with Server(arguments=("max-steps", 290)) as server, server.open() as line:
            add = self.define(line, "Add")
            keys = [f"v:{number}" for number in range(11)]
            self.assertEqual(line.get("JENTRY.INVOKEALL", add, 10, *keys[:10], 1), [1] * 10)
            self.fails(
                line.ask("JENTRY.INVOKEALL", add, 11, *keys, 1),
                "COSTLY steps 319 on 11 keys, and this server takes 290 (jentry.max-steps): name fewer keys",
            )
            self.assertEqual(line.get("MGET", "v:0", "v:10"), [b"1", None])
            line.get("CONFIG", "SET", "jentry.max-steps", 28)
            self.assertEqual(line.get("JENTRY.INVOKEALL", add, 1, "v:0", 1), [2])
            self.assertIsInstance(line.ask("JENTRY.INVOKEALL", add, 2, *keys[:2], 1), ReplyError)

    def test_default(self):
        with Server() as server, server.open() as line:
            self.assertEqual(line.get("CONFIG", "GET", "jentry.max-steps"), [b"jentry.max-steps", b"200000"])

    def test_wrong_words_of_the_module(self):
        for words in (
            ("max-steps",),
            ("max-steps", 0),
            ("max-steps", "x"),
            ("steps", 5),
            ("max-steps", 5, 6),
            ("max-steps", 4_000_001),
            ("direct", "maybe"),
            ("direct",),
            ("raw", "maybe"),
            ("raw",),
        ):
            with self.assertRaises(RuntimeError) as told:
                Server(arguments=words).__exit__()
            self.assertIn("the module's words are `max-steps N`", str(told.exception))

    def test_replicas_and_files_take_what_was_taken(self):
        with Server("--appendonly", "yes", arguments=("max-steps", 100)) as server, server.open() as line:
            add = self.define(line, "Add")
            with Server(
                "--replicaof", f"127.0.0.1 {server.port}", arguments=("max-steps", 1)
            ) as replica, replica.open() as other:
                plus = self.define(line, "Plus")
                line.get("WAIT", 1, 10_000)
                self.assertEqual(sorted(row[0] for row in other.get("JENTRY.LIST")), sorted([add, plus]))
            server.arguments = ("max-steps", 1)
            server.restart()
            with server.open() as again:
                self.assertEqual(sorted(row[0] for row in again.get("JENTRY.LIST")), sorted([add, plus]))


class Direct(ModuleTest):
    """Whether the module reads and writes integers in place."""

    def runs(self, line, add, count):
        """Returns how many GETs and SETs this many runs cost."""
        before = [line.calls(name) for name in ("get", "set")]
        for _ in range(count):
            line.get("JENTRY.INVOKE", add, "v:1", 1)
        return [line.calls(name) - told for name, told in zip(("get", "set"), before)]

    def test_the_log_says_which_way_is_taken(self):
        with Server() as server, server.open() as line:
            is_known, other = self.is_known(line), "this isn't Redis 7.0 or 8.0, or Valkey 8.1"
            if is_known:
                self.assertIn("integers are read and written in place\n", server.log())
            else:
                self.assertIn(f"integers are read by GET and written by SET: {other}", server.log())
            self.assertEqual(line.get("DBSIZE"), 0)
        with Server(arguments=("direct", "no", "max-steps", 5)) as server, server.open() as line:
            why = "jentry.direct is no" if is_known else other
            self.assertIn(f"integers are read by GET and written by SET: {why}", server.log())
            self.assertEqual(line.get("CONFIG", "GET", "jentry.direct"), [b"jentry.direct", b"no"])

    def test_it_can_be_switched_off(self):
        with Server(arguments=("direct", "no")) as server, server.open() as line:
            add = self.define(line, "Add")
            self.assertEqual(self.runs(line, add, 100), [100, 100])
            line.get("CONFIG", "SET", "jentry.direct", "yes")
            if self.is_known(line):
                line.get("SET", "v:1", 20_000)
                self.assertEqual(self.runs(line, add, 100)[0], 64)
                self.assertEqual(self.runs(line, add, 100), [0, 0])
            line.get("CONFIG", "SET", "jentry.direct", "no")
            self.assertEqual(self.runs(line, add, 100), [100, 100])
