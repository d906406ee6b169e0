"""Tests classes and values across restarts and in replicas, and the contents of their files and streams."""
import os
import re
import time

from module_test import NO_CLASS, ModuleTest
from servers import ReplyError, Server, class_file, wait_for


def ids_of(line):
    return [row[0] for row in line.get("JENTRY.LIST")]


class Restarts(ModuleTest):
    def fill(self, line):
        """Defines three classes, removes one of them, and sets a value."""
        add, plus, gone = self.define(line, "Add"), self.define(line, "Plus"), self.define(line, "Ratio")
        line.get("JENTRY.FORGET", gone)
        line.get("JENTRY.INVOKE", add, "v:1", 41)
        return add, plus

    def holds(self, server, add, plus):
        with server.open() as line:
            self.assertEqual(ids_of(line), sorted([add, plus]))
            self.assertEqual(line.get("JENTRY.CLASS", add), class_file("Add"))
            self.assertEqual(line.ask("JENTRY.INVOKE", add, "v:1", 1), 42)

    def test_rdb(self):
        with Server() as server:
            with server.open() as line:
                add, plus = self.fill(line)
                line.get("SAVE")
            server.restart("kill")
            self.holds(server, add, plus)

    def test_rdb_in_the_background(self):
        with Server() as server:
            with server.open() as line:
                add, plus = self.fill(line)
                line.get("BGSAVE")
                wait_for(lambda: line.info("persistence")["rdb_bgsave_in_progress"] == "0", "BGSAVE")
                self.assertEqual(line.info("persistence")["rdb_last_bgsave_status"], "ok")
            server.restart("kill")
            self.holds(server, add, plus)

    def test_aof(self):
        with Server("--appendonly", "yes") as server:
            with server.open() as line:
                add, plus = self.fill(line)
            server.restart()
            self.holds(server, add, plus)

    def test_aof_rewritten(self):
        with Server("--appendonly", "yes") as server:
            with server.open() as line:
                add, plus = self.fill(line)
                rewrite(line)
            server.restart()
            self.holds(server, add, plus)

    def test_aof_that_is_always_synchronous_and_a_kill(self):
        with Server("--appendonly", "yes", "--appendfsync", "always") as server:
            with server.open() as line:
                add, plus = self.fill(line)
            server.restart("kill")
            self.holds(server, add, plus)

    def test_classes_outlive_flushall(self):
        with Server() as server, server.open() as line:
            add, plus = self.fill(line)
            line.get("FLUSHALL")
            self.assertEqual(ids_of(line), sorted([add, plus]))

    def test_a_load_replaces_all_classes(self):
        with Server("--enable-debug-command", "yes") as server, server.open() as line:
            add, plus = self.fill(line)
            line.get("SAVE")
            line.get("JENTRY.FORGET", plus)
            self.define(line, "Lease")
            line.get("DEBUG", "RELOAD", "NOSAVE")
            self.assertEqual(ids_of(line), sorted([add, plus]))
            self.assertEqual(line.ask("JENTRY.INVOKE", add, "v:1", 1), 42)

    def test_a_load_without_classes_leaves_none(self):
        with Server("--enable-debug-command", "yes") as server, server.open() as line:
            line.get("SAVE")
            self.define(line, "Add")
            line.get("DEBUG", "RELOAD", "NOSAVE")
            self.assertEqual(ids_of(line), [])
            add = self.define(line, "Add")
            line.get("DEBUG", "RELOAD")
            self.assertEqual(ids_of(line), [add])

    def test_classes_of_an_aof_that_begins_without_classes(self):
        options = ("--appendonly", "yes", "--appendfsync", "always", "--enable-debug-command", "yes")
        with Server(*options) as server:
            with server.open() as line:
                rewrite(line)
                add, plus = self.fill(line)
            for _ in range(2):
                server.restart("kill")
                self.holds(server, add, plus)
                with server.open() as line:
                    line.get("JENTRY.INVOKE", add, "v:1", -1)
            with server.open() as line:
                line.get("DEBUG", "LOADAOF")
            self.holds(server, add, plus)

    def test_a_class_that_is_refused_now_is_left_out(self):
        with Server("--rdbcompression", "no", "--rdbchecksum", "no") as server:
            with server.open() as line:
                add, plus = self.fill(line)
                line.get("SAVE")
            path = os.path.join(server.folder, "dump.rdb")
            with open(path, "rb") as file:
                saved = file.read()
            self.assertEqual(saved.count(class_file("Plus")), 1)
            place = saved.index(class_file("Plus"))
            with open(path, "wb") as file:
                file.write(saved[:place] + b"\xca\xfe\xba\xbf" + saved[place + 4 :])
            server.restart("kill")
            with server.open() as line:
                self.assertEqual(ids_of(line), [add])
                self.assertEqual(line.ask("JENTRY.INVOKE", add, "v:1", 1), 42)
                self.fails(line.ask("JENTRY.INVOKE", plus, "v:1"), NO_CLASS)
            self.assertIn("a class of the file is left out: REFUSED 3 BadMagic", server.log())


def rewrite(line):
    """Rewrites the AOF."""

    def is_done():
        told = line.info("persistence")
        return (told["aof_rewrite_in_progress"], told["aof_rewrite_scheduled"]) == ("0", "0")

    wait_for(is_done, "an earlier rewrite")
    line.get("BGREWRITEAOF")
    wait_for(is_done, "the rewrite")


class RewritesAsCommands(ModuleTest):
    """With `aof-use-rdb-preamble no` the AOF's first part has no place for classes: the next part defines them."""

    def test_classes_outlive_rewrites(self):
        options = ("--appendonly", "yes", "--appendfsync", "always", "--aof-use-rdb-preamble", "no")
        with Server(*options) as server:
            with server.open() as line:
                add, plus, ratio = (self.define(line, name) for name in ("Add", "Plus", "Ratio"))
                line.get("JENTRY.INVOKE", add, "v:1", 41)
            for _ in range(2):
                with server.open() as line:
                    rewrite(line)
                    line.get("JENTRY.FORGET", ratio)
                server.restart("kill")
                with server.open() as line:
                    self.assertEqual(ids_of(line), sorted([add, plus]))
                    self.assertEqual(line.get("JENTRY.CLASS", add), class_file("Add"))
                    ratio = self.define(line, "Ratio")
            with server.open() as line:
                self.assertEqual(line.ask("JENTRY.INVOKE", add, "v:1", 1), 42)

    def test_an_aof_that_begins_later(self):
        with Server("--aof-use-rdb-preamble", "no") as server, Server() as replica:
            with server.open() as line, replica.open() as other:
                other.get("REPLICAOF", "127.0.0.1", server.port)
                wait_for(lambda: other.info("replication").get("master_link_status") == "up", "the link")
                add = self.define(line, "Add")
                line.get("JENTRY.INVOKE", add, "v:1", 41)
                line.get("CONFIG", "SET", "appendonly", "yes")

                def is_done():
                    told = line.info("persistence")
                    names = ("aof_rewrites", "aof_rewrite_in_progress", "rdb_bgsave_in_progress")
                    return [told[name] for name in names] == ["1", "0", "0"]

                wait_for(is_done, "the first rewrite")
                line.get("BGSAVE")
                self.assertEqual(line.ask("WAIT", 1, 10_000), 1)
                self.assertEqual(ids_of(other), [add])
            server.options += ("--appendonly", "yes")
            server.restart()
            with server.open() as line:
                self.assertEqual(ids_of(line), [add])
                self.assertEqual(line.ask("JENTRY.INVOKE", add, "v:1", 1), 42)


def aux_of_version_1(*files):
    """Returns an RDB file with the classes as version 1 of the data type has them: the number of classes and their files."""
    letters = "ABCDEFGHIJKLMNOPQRSTUVWXYZabcdefghijklmnopqrstuvwxyz0123456789-_"
    module = 0
    for letter in "jentrycls":
        module = module << 6 | letters.index(letter)
    long = lambda number: b"\x80" + number.to_bytes(4, "big")
    number = lambda value: long(2) + long(value)
    text = lambda value: long(5) + long(len(value)) + value
    aux = b"\xf7\x81" + (module << 10 | 1).to_bytes(8, "big") + number(1)
    aux += number(len(files)) + b"".join(map(text, files)) + long(0)
    return b"REDIS0010" + aux + b"\xff" + bytes(8)


class Versions(ModuleTest):
    def test_a_file_of_version_1(self):
        with Server("--rdbchecksum", "no") as server:
            server.end("kill")
            with open(os.path.join(server.folder, "dump.rdb"), "wb") as file:
                file.write(aux_of_version_1(class_file("Add"), class_file("Plus")))
            server.start()
            with server.open() as line:
                told = {row[6]: row[7:] for row in line.get("JENTRY.LIST")}
                self.assertEqual(told, {b"Add": [None, 0], b"Row": [None, 0]})
                self.assertEqual(line.get("JENTRY.INVOKE", row_of(line, b"Add")[0], "v:1", 5), 5)
                line.get("SAVE")
            server.restart("kill")
            with server.open() as line:
                self.assertEqual(len(ids_of(line)), 2)


def row_of(line, name):
    """Returns the row of LIST for the class with this name."""
    return next(row for row in line.get("JENTRY.LIST") if row[6] == name)


class Origins(ModuleTest):
    def test_who_defined_a_class_and_when(self):
        with Server("--appendonly", "yes") as server, Server() as replica:
            begun = time.time() * 1000
            with server.open() as line, replica.open() as other:
                line.get("ACL", "SETUSER", "ann", "on", "nopass", "+@all", "~*")
                self.define(line, "Plus")
                line.get("AUTH", "ann", "any")
                self.define(line, "Add")
                line.get("EVAL", "redis.call('JENTRY.DEFINE', ARGV[1])", 0, class_file("Lease"))
                told = {row[6]: row[7:] for row in line.get("JENTRY.LIST")}
                self.assertEqual([told[name][0] for name in (b"Row", b"Add", b"Lease")], [b"default", b"ann", None])
                for _, at in told.values():
                    self.assertTrue(begun - 1 <= at <= time.time() * 1000 + 1, at)
                other.get("REPLICAOF", "127.0.0.1", server.port)
                wait_for(lambda: other.info("replication").get("master_link_status") == "up", "the link")
                self.assertEqual({row[6]: row[7:] for row in other.get("JENTRY.LIST")}, told)
                rewrite(line)
            server.restart("kill")
            with server.open() as line:
                self.assertEqual({row[6]: row[7:] for row in line.get("JENTRY.LIST")}, told)


class Pitfalls(ModuleTest):
    def not_read_without_the_module(self, server, ids):
        """Restarts a server without the module, which has to fail, and then with it."""
        server.module = False
        with self.assertRaises(RuntimeError) as told:
            server.restart()
        self.assertIn("AUX module data I can't load", str(told.exception))
        server.module = True
        server.start()
        with server.open() as line:
            self.assertEqual(ids_of(line), ids)

    def test_a_file_with_classes_is_not_read_without_the_module(self):
        with Server() as server:
            with server.open() as line:
                add = self.define(line, "Add")
                line.get("SAVE")
            self.not_read_without_the_module(server, [add])

    def test_a_file_without_classes(self):
        """Redis 7.0 can't read it without the module; a server with aux_save2 can."""
        with Server() as server:
            with server.open() as line:
                line.get("JENTRY.FORGET", self.define(line, "Add"))
                line.get("SET", "v:1", 41)
                line.get("SAVE")
                is_oldest = self.is_oldest(line)
            if is_oldest:
                return self.not_read_without_the_module(server, [])
            for module in (False, True):
                server.module = module
                server.restart("kill")
                with server.open() as line:
                    self.assertEqual(line.get("GET", "v:1"), b"41")
            with server.open() as line:
                self.assertEqual(ids_of(line), [])

    def test_replication_of_a_new_server_waits_for_its_delay(self):
        with Server() as master, master.open() as line:
            self.assertEqual(line.get("CONFIG", "GET", "repl-diskless-sync-delay")[1], b"0")
            line.get("CONFIG", "SET", "repl-diskless-sync-delay", 2)
            add = self.define(line, "Add")
            with Server("--replicaof", f"127.0.0.1 {master.port}") as replica, replica.open() as other:
                self.assertEqual(ids_of(other), [])
                wait_for(lambda: ids_of(other) == [add], "the classes")


class Replicas(ModuleTest):
    def test_a_replica_has_classes_and_values(self):
        with Server() as master, master.open() as line:
            add = self.define(line, "Add")
            line.get("JENTRY.INVOKE", add, "v:1", 5)
            with Server("--replicaof", f"127.0.0.1 {master.port}") as replica, replica.open() as other:
                wait_for(lambda: other.info("replication")["master_link_status"] == "up", "the link")
                plus = self.define(line, "Plus")
                line.get("JENTRY.INVOKE", add, "v:1", 6)
                line.get("JENTRY.FORGET", self.define(line, "Ratio"))
                self.assertEqual(line.ask("WAIT", 1, 10_000), 1)
                self.assertEqual((ids_of(other), other.ask("GET", "v:1")), (sorted([add, plus]), b"11"))
                self.assertEqual(other.ask("OBJECT", "ENCODING", "v:1"), b"int")
                master.end("kill")
                other.get("REPLICAOF", "NO", "ONE")
                self.assertEqual(other.ask("JENTRY.INVOKE", add, "v:1", 1), 12)

    def test_a_replica_that_takes_over_drops_its_own_classes(self):
        with Server() as master, Server() as replica, master.open() as line, replica.open() as other:
            add = self.define(line, "Add")
            self.define(other, "Plus")
            other.get("REPLICAOF", "127.0.0.1", master.port)
            wait_for(lambda: other.info("replication").get("master_link_status") == "up", "the link")
            self.assertEqual(ids_of(other), [add])

    def test_a_replica_of_a_master_without_classes_has_none(self):
        with Server() as master, Server() as replica, master.open() as line, replica.open() as other:
            self.define(other, "Plus")
            line.get("SET", "v:1", 41)
            other.get("REPLICAOF", "127.0.0.1", master.port)
            wait_for(lambda: other.info("replication").get("master_link_status") == "up", "the link")
            self.assertEqual([ids_of(other), other.get("GET", "v:1")], [[], b"41"])

    def test_what_is_sent(self):
        """Replicas receive plain commands: never a call of a processor, and nothing for a run that leaves the entry unchanged."""
        with Server() as server, server.open() as line, server.open() as watcher:
            watcher.line.settimeout(30)
            add, cas = self.define(line, "Add"), self.define(line, "CompareAndSet")
            watcher.send("PSYNC", "?", "-1")
            stream = watcher.file
            self.assertTrue(stream.readline().startswith(b"+FULLRESYNC"))
            head = stream.readline().strip()
            while not head.startswith(b"$"):
                head = stream.readline().strip()
            if head.startswith(b"$EOF:"):
                mark, data = head[5:], b""
                while not data.endswith(mark):
                    data += stream.read(1)
            else:
                stream.read(int(head[1:]))
            line.get("JENTRY.INVOKE", add, "v:1", 5)
            line.get("JENTRY.INVOKE", add, "v:1", 0)
            line.get("JENTRY.PEEK", cas, "v:1", 7, 8)
            line.ask("JENTRY.INVOKE", add, "v:1")
            line.get("JENTRY.INVOKE", cas, "v:1", 5, "null")
            line.get("JENTRY.INVOKEALL", add, 2, "v:1", "v:2", 3)
            line.get("JENTRY.APPLY", 100_000, -1, -1, "do", add, "v:3", 3)
            line.get("JENTRY.APPLY", -1, -1, -1, "dry", add, "v:3", 3)
            line.get("JENTRY.INVOKE", add, "v:3", 1)
            self.define(line, "Add")
            plus = self.define(line, "Plus")
            line.get("JENTRY.FORGET", plus)
            line.get("JENTRY.FORGET", plus)
            line.get("SET", "end", 1)
            sent = []
            while sent[-1:] != [[b"SET", b"end", b"1"]]:
                words = watcher.take()
                if words[0].upper() not in (b"PING", b"SELECT", b"REPLCONF"):
                    sent.append(words)
            self.assertEqual(re.fullmatch(rb"1\d{12}", sent[6].pop()) is not None, True)
            self.assertEqual(
                sent,
                [
                    [b"SET", b"v:1", b"5"],
                    [b"DEL", b"v:1"],
                    [b"MULTI"],
                    [b"SET", b"v:1", b"3"],
                    [b"SET", b"v:2", b"3"],
                    [b"EXEC"],
                    [b"SET", b"v:3", b"3", b"PXAT"],
                    [b"SET", b"v:3", b"4", b"KEEPTTL"],
                    [b"JENTRY.DEFINE", class_file("Plus")],
                    [b"JENTRY.FORGET", plus],
                    [b"SET", b"end", b"1"],
                ],
            )


class Diskless(ModuleTest):
    def test_a_load_that_breaks_off_keeps_the_classes(self):
        with Server("--repl-diskless-load", "swapdb") as replica, replica.open() as other:
            add = self.define(other, "Add")
            with Server() as master, master.open() as line:
                plus = self.define(line, "Plus")
                other.get("REPLICAOF", "127.0.0.1", master.port)
                wait_for(lambda: other.info("replication").get("master_link_status") == "up", "the link")
                self.assertEqual(ids_of(other), [plus])
            other.get("REPLICAOF", "NO", "ONE")
            self.assertEqual(ids_of(other), [plus])
            self.assertNotIn(add, ids_of(other))
            self.assertNotIsInstance(other.ask("JENTRY.INVOKE", plus, "v:1"), bytes)
            self.assertIsInstance(other.ask("JENTRY.INVOKE", add, "v:1", 1), ReplyError)
