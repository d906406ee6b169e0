"""Tests runs together with other features of Redis: transactions, scripts, expiry, events, eviction, replicas, limits."""
import os
import shutil
import subprocess
import threading
import unittest

from commands_test import OneServer
from module_test import ModuleTest
from servers import MODULE, ReplyError, Server, class_file, wait_for


class Around(OneServer):
    def test_multi(self):
        self.line.get("MULTI")
        for _ in range(3):
            self.assertEqual(self.ask("JENTRY.INVOKE", self.add, "v:1", 5), b"QUEUED")
        self.ask("JENTRY.INVOKE", self.add, "v:1")
        self.ask("GET", "v:1")
        told = self.ask("EXEC")
        self.assertEqual(
            [told[0], told[1], told[2], str(told[3]), told[4]],
            [5, 10, 15, "THREW 2 ArrayIndexOutOfBoundsException", b"15"],
        )

    def test_watch(self):
        with self.server.open() as other:
            self.line.get("WATCH", "v:1")
            other.get("JENTRY.INVOKE", self.add, "v:1", 5)
            self.line.get("MULTI")
            self.line.get("SET", "v:2", 1)
            self.assertIsNone(self.ask("EXEC"))
            self.line.get("WATCH", "v:1")
            other.get("JENTRY.INVOKE", self.add, "v:1", 0)
            other.get("JENTRY.INVOKE", self.add, "v:3", 1)
            self.line.get("MULTI")
            self.line.get("SET", "v:2", 1)
            self.assertEqual(self.ask("EXEC"), [b"OK"])

    def test_eval_and_functions(self):
        script = "return {redis.call('JENTRY.INVOKE', ARGV[1], KEYS[1], 5), redis.call('GET', KEYS[1]), redis.pcall('JENTRY.INVOKE', ARGV[1], KEYS[1])}"
        told = self.ask("EVAL", script, 1, "v:1", self.add)
        self.assertEqual([told[0], told[1], str(told[2])], [5, b"5", "THREW 2 ArrayIndexOutOfBoundsException"])
        self.line.get(
            "FUNCTION",
            "LOAD",
            "REPLACE",
            "#!lua name=t\nredis.register_function('t', function(k, a) return redis.call('JENTRY.INVOKE', a[1], k[1], 5) end)",
        )
        self.assertEqual(self.ask("FCALL", "t", 1, "v:1", self.add), 10)

    def test_expire(self):
        self.line.get("SET", "v:1", 1, "PX", 100_000)
        self.assertEqual(self.ask("JENTRY.INVOKE", self.add, "v:1", 5), 6)
        self.assertTrue(90_000 < self.ask("PTTL", "v:1") <= 100_000)
        self.line.get("PEXPIRE", "v:1", 1)
        wait_for(lambda: self.ask("PTTL", "v:1") == -2, "the expiry")
        self.assertEqual(self.ask("JENTRY.INVOKE", self.add, "v:1", 5), 5)
        self.assertEqual(self.ask("PTTL", "v:1"), -1)

    def test_keyspace_events(self):
        self.line.get("CONFIG", "SET", "notify-keyspace-events", "KA")
        cas = self.define(self.line, "CompareAndSet")
        with self.server.open() as listener:
            listener.get("PSUBSCRIBE", "__keyspace@0__:v:*")
            self.line.get("JENTRY.INVOKE", self.add, "v:1", 5)
            self.line.get("JENTRY.INVOKE", self.add, "v:1", 0)
            self.line.get("JENTRY.INVOKE", cas, "v:1", 5, "null")
            events = [listener.take()[3] for _ in range(2)]
            self.assertEqual(events, [b"set", b"del"])
        self.line.get("CONFIG", "SET", "notify-keyspace-events", "")

    def test_databases_are_apart(self):
        self.line.get("JENTRY.INVOKE", self.add, "v:1", 5)
        with self.server.open() as other:
            other.get("SELECT", 3)
            self.assertEqual(other.ask("JENTRY.INVOKE", self.add, "v:1", 7), 7)
        self.assertEqual(self.ask("GET", "v:1"), b"5")
        self.line.get("FLUSHALL")
        self.assertEqual(self.ask("JENTRY.INVOKE", self.add, "v:1", 1), 1)

    def test_pipeline(self):
        for _ in range(1000):
            self.line.send("JENTRY.INVOKE", self.add, "v:1", 1)
        self.assertEqual([self.line.take() for _ in range(1000)], list(range(1, 1001)))

    def test_sum_of_eight_clients(self):
        def count():
            with self.server.open() as line:
                for _ in range(200):
                    line.get("JENTRY.INVOKE", self.add, "v:1", 1)

        threads = [threading.Thread(target=count) for _ in range(8)]
        for thread in threads:
            thread.start()
        for thread in threads:
            thread.join()
        self.assertEqual(self.ask("GET", "v:1"), b"1600")

    def test_io_threads(self):
        with Server("--io-threads", 2, "--io-threads-do-reads", "yes") as server, server.open() as line:
            add = self.define(line, "Add")

            def count():
                with server.open() as line:
                    for _ in range(20):
                        for _ in range(20):
                            line.send("JENTRY.INVOKE", add, "v:1", 1)
                        for _ in range(20):
                            line.take()

            threads = [threading.Thread(target=count) for _ in range(8)]
            for thread in threads:
                thread.start()
            for thread in threads:
                thread.join()
            self.assertEqual(line.ask("GET", "v:1"), b"3200")


class Looks(OneServer):
    """On a known release an integer is read directly after GET has confirmed 64 direct reads; everything else is read by GET."""

    def add_to(self, values):
        """Runs Add on entries with these values, and returns the new values and the number of GETs."""
        for number, value in enumerate(values):
            self.line.get("SET", f"v:{number}", value)
        before = self.line.calls("get")
        for number in range(len(values)):
            self.line.get("JENTRY.INVOKE", self.add, f"v:{number}", 1)
        gets = self.line.calls("get") - before
        return [int(self.ask("GET", f"v:{number}")) for number in range(len(values))], gets

    def test_integers_and_texts(self):
        self.needs_known(self.line)
        self.add_to([1] * 64)
        digits = [sign * int("9876543210987654321"[:count]) for count in range(1, 19) for sign in (1, -1)]
        values = [0, 9, 10, 9_999, 10_000, 2**63 - 2, -(2**63), *digits]
        self.assertEqual(self.add_to(values), ([value + 1 for value in values], 0))
        self.line.get("SET", "v:0", 1)
        self.line.get("APPEND", "v:0", 2)
        before = self.line.calls("get")
        self.assertEqual(self.line.get("JENTRY.INVOKE", self.add, "v:0", 1), 13)
        self.assertEqual(self.line.calls("get"), before + 1)
        self.assertNotIn("keeps integers otherwise", self.server.log())


class Library(ModuleTest):
    @unittest.skipIf(shutil.which("nm") is None, "there is no nm (apt-get install binutils)")
    def test_exported_names(self):
        told = subprocess.run(
            ["nm", "-D", "--defined-only", MODULE], stdout=subprocess.PIPE, text=True, check=True
        ).stdout
        self.assertEqual([line.split()[-1] for line in told.splitlines()], ["RedisModule_OnLoad"])

    def test_what_it_needs(self):
        told = subprocess.run(["ldd", MODULE], stdout=subprocess.PIPE, text=True, check=True).stdout
        names = {os.path.basename(line.split()[0]).split(".so")[0] for line in told.splitlines()}
        self.assertLessEqual(names, {"linux-vdso", "ld-linux-x86-64", "libc", "libgcc_s"})


class Limits(ModuleTest):
    def test_no_eviction(self):
        with Server("--maxmemory-policy", "noeviction") as server, server.open() as line:
            add = self.define(line, "Add")
            line.get("SET", "v:1", 41)
            line.get("CONFIG", "SET", "maxmemory", 1)
            oom = "OOM command not allowed when used memory > 'maxmemory'."
            for words in (
                ("JENTRY.INVOKE", add, "v:1", 1),
                ("JENTRY.DETAIL", add, "v:1", 1),
                ("JENTRY.INVOKEALL", add, 1, "v:1", 1),
                ("JENTRY.APPLY", -1, -1, -1, "do", add, "v:1", 1),
                ("JENTRY.DEFINE", class_file("Plus")),
            ):
                self.fails(line.ask(*words), oom)
            cas = "0" * 40
            self.fails(line.ask("JENTRY.PEEK", cas, "v:1", 1), "NOCLASS no class of this id here: JENTRY.DEFINE it")
            self.assertEqual(line.ask("JENTRY.FORGET", add), 1)
            self.assertEqual(line.ask("GET", "v:1"), b"41")

    def test_eviction(self):
        with Server("--maxmemory-policy", "allkeys-lru") as server, server.open() as line:
            add = self.define(line, "Add")
            used = int(line.info("memory")["used_memory"])
            line.get("CONFIG", "SET", "maxmemory", used + 500_000)
            for number in range(20_000):
                line.send("JENTRY.INVOKE", add, f"entry:{number}", 1)
            self.assertEqual({line.take() for _ in range(20_000)}, {1})
            self.assertGreater(int(line.info("stats")["evicted_keys"]), 1000)
            self.assertEqual(len(line.get("JENTRY.LIST")), 1)

    def test_replica_is_read_only(self):
        with Server() as master, Server(
            "--replicaof", f"127.0.0.1 {master.port}"
        ) as replica, master.open() as line, replica.open() as other:
            wait_for(lambda: other.info("replication")["master_link_status"] == "up", "the link")
            add, cas = self.define(line, "Add"), self.define(line, "CompareAndSet")
            line.get("JENTRY.INVOKE", add, "v:1", 5)
            self.assertEqual(line.ask("WAIT", 1, 10_000), 1)
            read_only = "READONLY You can't write against a read only replica."
            for words in (
                ("JENTRY.INVOKE", add, "v:1", 1),
                ("JENTRY.DETAIL", add, "v:1", 1),
                ("JENTRY.DEFINE", class_file("Plus")),
                ("JENTRY.FORGET", add),
                ("JENTRY.INVOKEALL", add, 1, "v:1", 1),
                ("JENTRY.APPLY", -1, -1, -1, "dry", add, "v:1", 1),
            ):
                self.fails(other.ask(*words), read_only)
            self.assertEqual(other.ask("JENTRY.PEEK", cas, "v:1", 1, 2), 0)
            self.assertEqual(other.ask("GET", "v:1"), b"5")

    def test_too_few_replicas(self):
        with Server("--min-replicas-to-write", 1) as server, server.open() as line:
            self.fails(line.ask("JENTRY.DEFINE", class_file("Add")), "NOREPLICAS Not enough good replicas to write.")
            line.get("CONFIG", "SET", "min-replicas-to-write", 0)
            add = self.define(line, "Add")
            line.get("CONFIG", "SET", "min-replicas-to-write", 1)
            self.fails(line.ask("JENTRY.INVOKE", add, "v:1", 1), "NOREPLICAS Not enough good replicas to write.")

    def test_a_server_without_the_module(self):
        with Server(module=False) as server, server.open() as line:
            self.assertRegex(str(line.ask("JENTRY.LIST")), "^ERR unknown command")

    def test_the_module_is_loaded_once(self):
        with Server("--enable-module-command", "yes") as server, server.open() as line:
            self.assertIsInstance(line.ask("MODULE", "LOAD", MODULE), ReplyError)
            self.assertIsInstance(line.ask("MODULE", "UNLOAD", "jentry"), ReplyError)
            self.assertEqual(line.ask("JENTRY.INVOKE", self.define(line, "Add"), "v:1", 3), 3)

    def test_module_load_at_run_time(self):
        with Server("--enable-module-command", "yes", module=False) as server, server.open() as line:
            self.assertEqual(line.get("MODULE", "LOAD", MODULE, "max-steps", 29), b"OK")
            self.assertEqual(line.ask("JENTRY.INVOKE", self.define(line, "Add"), "v:1", 3), 3)
