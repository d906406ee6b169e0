"""On a known release the integer of an entry is written in place, with all other effects of a SET."""
import unittest

from commands_test import OneServer
from servers import Server, wait_for

KEYS = 10_000
"""With this number of keys a client's buffer of 16 KB, which Redis makes and frees by its own clock, is less than a twentieth of their memory."""
SHARED = 2**31 - 1
"""The reference count of an integer that Redis shares. An integer in Valkey has one reference."""
CHECKS = 64
"""So many looks are held to GET, and until then each write is a SET."""


class Writes(OneServer):
    def setUp(self):
        super().setUp()
        self.needs_known(self.line)
        self.shared = 1 if "valkey_version" in self.line.info("server") else SHARED
        self.warm(self.line, self.add)

    def warm(self, line, add):
        line.get("SET", "warm:1", 1)
        for _ in range(CHECKS):
            line.get("JENTRY.INVOKE", add, "warm:1", 1)

    def sets_of(self, runs, key="v:1"):
        """Runs Add on an entry, and returns the number of SETs that this caused."""
        before = self.line.calls("set")
        for _ in range(runs):
            self.line.get("JENTRY.INVOKE", self.add, key, 1)
        return self.line.calls("set") - before

    def held(self, key="v:1"):
        """Returns the value of an entry, its encoding, and the reference count of its object."""
        return [self.ask("GET", key), self.ask("OBJECT", "ENCODING", key), self.ask("OBJECT", "REFCOUNT", key)]

    def test_an_integer_of_its_own(self):
        self.line.get("SET", "v:1", 20_000)
        self.assertEqual(self.sets_of(10), 0)
        self.assertEqual(self.held(), [b"20010", b"int", 1])

    def test_values_of_all_lengths(self):
        for value in [-(2**63), 2**63 - 2, 10**18, -(10**18), -2, -10, 99_999]:
            self.line.get("SET", "v:1", value)
            self.assertEqual(self.sets_of(1), 0, value)
            self.assertEqual(self.held(), [b"%d" % (value + 1), b"int", 1])

    def test_a_shared_integer_is_never_written(self):
        for number in range(1, 4):
            self.line.get("SET", f"v:{number}", 5)
        self.assertEqual(self.ask("OBJECT", "REFCOUNT", "v:1"), self.shared)
        self.assertEqual(self.sets_of(10), 0)
        self.assertEqual(self.held(), [b"15", b"int", self.shared])
        self.assertEqual(self.ask("MGET", "v:2", "v:3"), [b"5", b"5"])
        self.line.get("SET", "v:4", 5)
        self.assertEqual(self.ask("INCR", "v:4"), 6)

    def test_a_new_entry(self):
        # One SET creates it, unless the module has the shared object of its value.
        self.assertEqual(self.sets_of(3), self.shared == 1)
        self.assertEqual(self.held(), [b"3", b"int", self.shared])

    def test_a_value_needs_one_set(self):
        """The module knows a shared integer after the first entry that it sets to it."""
        self.line.get("MSET", *(it for number in range(20) for it in (f"v:{number}", 7_777)))
        self.assertLessEqual(sum(self.sets_of(1, f"v:{number}") for number in range(20)), 1)
        self.assertEqual(self.held("v:19"), [b"7778", b"int", self.shared])

    def test_at_the_ends_of_the_shared_integers(self):
        self.needs_shared(self.line)
        self.line.get("SET", "v:1", 9_998)
        self.assertEqual(self.sets_of(1), 1)
        self.assertEqual(self.held(), [b"9999", b"int", SHARED])
        self.assertEqual(self.sets_of(1), 1)
        self.assertEqual(self.held(), [b"10000", b"int", 1])
        self.assertEqual(self.sets_of(1), 0)
        self.line.get("SET", "v:1", 9_998)
        self.assertEqual(self.sets_of(1), 0)
        self.assertEqual(self.held(), [b"9999", b"int", SHARED])
        for value, count in ((-2, 1), (-(10**6), 2)):
            self.line.get("SET", "v:1", value)
            self.assertEqual(self.sets_of(count), 0)
        self.line.get("SET", "v:1", -1)
        self.assertLessEqual(self.sets_of(1), 1)
        self.assertEqual(self.held(), [b"0", b"int", SHARED])

    def test_no_memory_beyond_that_of_incrby(self):
        def used(values, *words):
            """Adds the values to each key, and returns the bytes that the keys take."""
            # Valkey frees the entries later, if it isn't told otherwise.
            self.line.get("FLUSHALL", "SYNC")
            before = int(self.line.info("memory")["used_memory"])
            for number in range(KEYS):
                for value in values:
                    self.line.send(*words, f"v:{number}", value)
                for value in values:
                    told = self.line.take()
            self.assertEqual(told, sum(values))
            return int(self.line.info("memory")["used_memory"]) - before

        for values in ([1, 1], [20_000, 1], [5_000, 5_000, -3, -9_990]):
            base = used(values, "INCRBY")
            self.assertLess(used(values, "JENTRY.INVOKE", self.add), 1.05 * base, values)

    def test_an_eviction_by_age_has_no_shared_integers(self):
        self.needs_shared(self.line)
        for setting, value in (("maxmemory", "1gb"), ("maxmemory-policy", "allkeys-lru")):
            self.addCleanup(self.line.get, "CONFIG", "SET", setting, self.line.get("CONFIG", "GET", setting)[1])
            self.line.get("CONFIG", "SET", setting, value)
        self.assertEqual(self.sets_of(1), 1)
        self.assertEqual(self.held(), [b"1", b"int", 1])
        self.assertEqual(self.sets_of(10), 0)
        self.assertEqual(self.held(), [b"11", b"int", 1])
        self.line.get("CONFIG", "SET", "maxmemory-policy", "noeviction")
        self.assertEqual(self.sets_of(1), 0)
        self.assertEqual(self.held(), [b"12", b"int", SHARED])

    def test_an_old_key_is_never_told_to_be_new(self):
        self.line.get("CONFIG", "SET", "notify-keyspace-events", "KAn")
        self.addCleanup(self.line.get, "CONFIG", "SET", "notify-keyspace-events", "")
        with self.server.open() as listener:
            listener.get("PSUBSCRIBE", "__keyspace@0__:v:*")
            self.sets_of(3)
            self.assertEqual([listener.take()[3] for _ in range(4)], [b"new", b"set", b"set", b"set"])
        self.assertEqual(self.held(), [b"3", b"int", self.shared])

    def test_a_text_of_digits(self):
        self.line.get("SET", "v:1", 1)
        self.line.get("APPEND", "v:1", 2)
        self.assertEqual(self.ask("OBJECT", "ENCODING", "v:1"), b"raw")
        self.assertEqual(self.sets_of(3), 1)
        self.assertEqual(self.held(), [b"15", b"int", self.shared])

    def test_a_copy_is_another_entry(self):
        self.line.get("SET", "v:1", 20_000)
        self.line.get("COPY", "v:1", "v:2")
        self.assertEqual(self.sets_of(1), 0)
        self.assertEqual(self.ask("MGET", "v:1", "v:2"), [b"20001", b"20000"])
        self.line.get("RENAME", "v:1", "v:3")
        self.assertEqual(self.sets_of(1, "v:3"), 0)
        self.assertEqual(self.ask("MGET", "v:1", "v:2", "v:3"), [None, b"20000", b"20002"])

    def test_a_time_to_live_stays(self):
        for value in [5, 20_000]:
            self.line.get("SET", "v:1", value, "PX", 100_000)
            self.sets_of(3)
            self.assertTrue(90_000 < self.ask("PTTL", "v:1") <= 100_000)
            self.assertEqual(self.ask("GET", "v:1"), b"%d" % (value + 3))

    def test_who_watches_the_key(self):
        self.line.get("SET", "v:1", 20_000)
        with self.server.open() as other:
            other.get("WATCH", "v:1")
            self.assertEqual(self.sets_of(1), 0)
            other.get("MULTI")
            other.get("SET", "v:2", 1)
            self.assertIsNone(other.ask("EXEC"))

    def test_who_tracks_the_key(self):
        self.line.get("SET", "v:1", 20_000)
        with self.server.open() as other, self.server.open() as listener:
            listener.get("SUBSCRIBE", "__redis__:invalidate")
            number = int(listener_id(self.line))
            other.get("CLIENT", "TRACKING", "ON", "REDIRECT", number)
            other.get("GET", "v:1")
            self.assertEqual(self.sets_of(1), 0)
            self.assertEqual(listener.take(), [b"message", b"__redis__:invalidate", [b"v:1"]])

    def test_events(self):
        self.line.get("CONFIG", "SET", "notify-keyspace-events", "KEA")
        self.addCleanup(self.line.get, "CONFIG", "SET", "notify-keyspace-events", "")
        self.line.get("SET", "v:1", 20_000)
        with self.server.open() as listener:
            listener.get("PSUBSCRIBE", "*")
            self.assertEqual(self.sets_of(2), 0)
            self.assertEqual(
                [listener.take()[2:] for _ in range(4)],
                [[b"__keyspace@0__:v:1", b"set"], [b"__keyevent@0__:set", b"v:1"]] * 2,
            )

    def test_each_is_a_change_to_be_saved(self):
        def changes():
            return int(self.line.info("persistence")["rdb_changes_since_last_save"])

        self.line.get("SET", "v:1", 20_000)
        before = changes()
        self.assertEqual(self.sets_of(7), 0)
        self.assertEqual(changes() - before, 7)

    def test_a_key_several_times_in_one_command(self):
        self.line.get("MULTI")
        for _ in range(3):
            self.line.get("JENTRY.INVOKEALL", self.add, 3, "v:1", "v:1", "v:1", 1)
        self.assertEqual(self.ask("EXEC"), [[1, 2, 3], [4, 5, 6], [7, 8, 9]])
        self.assertEqual(self.ask("GET", "v:1"), b"9")


def listener_id(line):
    """Returns the id of the client that has subscribed."""
    clients = [
        dict(word.split("=", 1) for word in row.split()) for row in line.get("CLIENT", "LIST").decode().splitlines()
    ]
    return next(client["id"] for client in clients if client["sub"] == "1")


class Written(Writes):
    """Tests what the AOF and a replica receive. The tests of Writes run again on a server with an AOF."""

    @classmethod
    def setUpClass(cls):
        cls.server = Server("--appendonly", "yes", "--appendfsync", "always")
        cls.addClassCleanup(cls.server.__exit__)

    def run_all(self):
        """Runs Add on entries of every kind. Returns the keys and their values."""
        self.line.get("MSET", "v:1", 5, "v:2", 20_000, "v:3", 5)
        self.line.get("SET", "v:4", 20_000, "PX", 100_000)
        for number in range(1, 6):
            self.sets_of(5, f"v:{number}")
        self.line.get("MULTI")
        self.line.get("JENTRY.INVOKEALL", self.add, 4, "v:1", "v:1", "v:6", "v:6", 1)
        self.line.get("JENTRY.INVOKE", self.add, "v:4", 1)
        self.line.get("EXEC")
        keys = [f"v:{number}" for number in range(1, 7)]
        values = self.ask("MGET", *keys)
        self.assertEqual(values, [b"12", b"20005", b"10", b"20006", b"5", b"2"])
        return keys, values

    def logged(self, *words):
        return self.server.logged(self.line, *words)

    def test_the_set_that_is_logged(self):
        plus, cas = self.define(self.line, "Plus"), self.define(self.line, "CompareAndSet")
        for keep in ([], [b"KEEPTTL"]):
            self.line.get("SET", "v:1", 20_000, *(["PX", 100_000] if keep else []))
            self.assertEqual(self.logged("JENTRY.INVOKE", plus, "v:1"), (20_001, [[b"SET", b"v:1", b"20001", *keep]]))
            # A SET with as many arguments as the command costs least; KEEPTTL has no effect on an entry without a time to live.
            self.assertEqual(
                self.logged("JENTRY.INVOKE", self.add, "v:1", 1), (20_002, [[b"SET", b"v:1", b"20002", b"KEEPTTL"]])
            )
            self.assertEqual(
                self.logged("JENTRY.INVOKE", cas, "v:1", 20_002, 20_005), (1, [[b"SET", b"v:1", b"20005", *keep]])
            )
            self.assertEqual(self.logged("JENTRY.INVOKE", self.add, "v:1", 0), (20_005, []))
            self.assertEqual(
                self.ask("EVAL", "return redis.call('JENTRY.INVOKE', ARGV[1], KEYS[1])", 1, "v:1", plus), 20_006
            )
        self.assertEqual(self.ask("GET", "v:1"), b"20006")

    def test_after_a_kill(self):
        keys, values = self.run_all()
        self.line.close()
        self.server.restart(by="kill")
        self.line = self.server.open()
        self.assertEqual(self.ask("MGET", *keys), values)
        self.assertTrue(80_000 < self.ask("PTTL", "v:4") <= 100_000)

    def test_on_a_replica(self):
        with Server() as replica, replica.open() as other:
            other.get("REPLICAOF", "127.0.0.1", self.server.port)
            wait_for(lambda: other.info("replication").get("master_link_status") == "up", "the link")
            keys, values = self.run_all()
            self.assertEqual(self.ask("WAIT", 1, 60_000), 1)
            self.assertEqual(other.ask("MGET", *keys), values)
            self.assertTrue(80_000 < other.ask("PTTL", "v:4") <= 100_000)


if __name__ == "__main__":
    unittest.main()
