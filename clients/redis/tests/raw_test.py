"""Tests runs that read and write entries as raw strings (`jentry.raw`), with all other effects of a SET. They run on each server, since the module
uses functions of the module API alone for it."""
import random

from commands_test import NOT_A_LONG, OneServer
from module_test import ModuleTest
from servers import Server, wait_for

ARGUMENTS = ("direct", "no", "raw", "yes")
LEAST, MOST = -(2**63), 2**63 - 1
HOUR = 3_600_000
"""A time to live in milliseconds, of which no test takes half."""


class RawServer(OneServer):
    options = ()

    @classmethod
    def setUpClass(cls):
        cls.server = Server(*cls.options, arguments=ARGUMENTS)
        cls.addClassCleanup(cls.server.__exit__)

    def calls_of(self, action):
        """Returns how many GETs and SETs an action costs."""
        before = [self.line.calls(name) for name in ("get", "set")]
        action()
        return [self.line.calls(name) - told for name, told in zip(("get", "set"), before)]

    def encoding(self, key="v:1"):
        return self.ask("OBJECT", "ENCODING", key)

    def add_to(self, value, more, key="v:1"):
        """Sets an entry and runs Add on it. Returns the result."""
        self.line.get("SET", key, value)
        return self.line.get("JENTRY.INVOKE", self.add, key, more)


class Raw(RawServer):
    def test_an_entry_is_read_and_written_without_get_and_set(self):
        self.line.get("SET", "v:1", 20_000)
        run = lambda: self.line.get("JENTRY.INVOKE", self.add, "v:1", 1)
        self.assertEqual(self.calls_of(run), [0, 0])
        self.assertEqual([self.ask("GET", "v:1"), self.encoding()], [b"20001", b"raw"])
        self.assertEqual(self.calls_of(lambda: [run() for _ in range(100)]), [0, 0])
        self.assertEqual(self.ask("GET", "v:1"), b"20101")
        self.assertEqual([self.ask("INCRBY", "v:1", 5), self.encoding()], [20_106, b"int"])
        self.assertEqual(self.ask("JENTRY.INVOKE", self.add, "v:1", 1), 20_107)

    def test_values_of_all_lengths(self):
        chosen = random.Random(60)
        numbers = [0, 9, 10, 99, 100, -1, -9, -10, 10**18, -(10**18), MOST, LEAST, LEAST + 1]
        numbers += [chosen.getrandbits(chosen.randrange(1, 64)) * chosen.choice([1, -1]) for _ in range(200)]
        for value in numbers:
            for wanted in (value, chosen.choice(numbers), chosen.choice(numbers)):
                more = (wanted - value + 2**63) % 2**64 - 2**63
                with self.subTest(value=value, more=more):
                    self.assertEqual(self.add_to(value, more), wanted)
                    self.assertEqual(self.ask("GET", "v:1"), b"%d" % wanted)
                    self.assertEqual(self.ask("STRLEN", "v:1"), len(str(wanted)))

    def test_a_shared_integer_is_never_written(self):
        for number in range(1, 4):
            self.line.get("SET", f"v:{number}", 5)
        self.assertEqual(self.ask("JENTRY.INVOKE", self.add, "v:1", 10), 15)
        self.line.get("SET", "v:4", 5)
        self.assertEqual(self.ask("MGET", "v:1", "v:2", "v:3", "v:4"), [b"15", b"5", b"5", b"5"])
        self.assertEqual(self.ask("INCR", "v:4"), 6)

    def test_a_copy_is_another_entry(self):
        self.add_to(20_000, 1)
        self.line.get("COPY", "v:1", "v:2")
        self.assertEqual(self.ask("JENTRY.INVOKE", self.add, "v:1", 1), 20_002)
        self.assertEqual(self.ask("MGET", "v:1", "v:2"), [b"20002", b"20001"])
        self.line.get("RENAME", "v:1", "v:3")
        self.assertEqual(self.ask("JENTRY.INVOKE", self.add, "v:3", 1), 20_003)
        self.assertEqual(self.ask("MGET", "v:1", "v:2", "v:3"), [None, b"20001", b"20003"])

    def test_a_new_entry_is_an_integer_until_the_next_run(self):
        self.assertEqual(self.calls_of(lambda: self.line.get("JENTRY.INVOKE", self.add, "v:1", 5)), [1, 1])
        self.assertEqual([self.ask("GET", "v:1"), self.encoding()], [b"5", b"int"])
        self.assertEqual(self.ask("JENTRY.INVOKE", self.add, "v:1", 5), 10)
        self.assertEqual([self.ask("GET", "v:1"), self.encoding()], [b"10", b"raw"])

    def test_who_only_reads_leaves_the_encoding(self):
        cas = self.define(self.line, "CompareAndSet")
        self.line.get("SET", "v:1", 5)
        self.assertEqual(self.ask("JENTRY.PEEK", cas, "v:1", 1, 2), 0)
        self.assertEqual(self.ask("JENTRY.APPLY", -1, -1, -1, "dry", self.add, "v:1", 5)[0], 10)
        self.assertEqual([self.ask("GET", "v:1"), self.encoding()], [b"5", b"int"])

    def test_texts_that_are_no_longs(self):
        for text in (
            "",
            "x",
            " 1",
            "1 ",
            "01",
            "+1",
            "-0",
            "1.0",
            "9223372036854775808",
            "1" * 20,
            "1" * 21,
            "x" * 40,
            "1" * 500,
        ):
            with self.subTest(text=text):
                self.line.get("SET", "v:1", text)
                self.fails(self.ask("JENTRY.INVOKE", self.add, "v:1", 1), NOT_A_LONG)
                self.assertEqual(self.ask("GET", "v:1"), text.encode())
        for count in (21, 40):
            self.line.get("SET", "v:1", "x" * count)
            encoding = self.encoding()
            self.fails(self.ask("JENTRY.INVOKE", self.add, "v:1", 1), NOT_A_LONG)
            self.assertEqual(self.encoding(), encoding)
        self.line.get("DEL", "v:1")
        self.line.get("LPUSH", "v:1", 1)
        self.fails(
            self.ask("JENTRY.INVOKE", self.add, "v:1", 1),
            "WRONGTYPE Operation against a key holding the wrong kind of value",
        )

    def test_a_text_of_digits(self):
        self.line.get("SET", "v:1", 1)
        self.line.get("APPEND", "v:1", 2)
        self.assertEqual(self.calls_of(lambda: self.line.get("JENTRY.INVOKE", self.add, "v:1", 3)), [0, 0])
        self.assertEqual(self.ask("GET", "v:1"), b"15")

    def test_what_leaves_the_entry(self):
        self.line.get("SET", "v:1", 41)
        self.fails(self.ask("JENTRY.INVOKE", self.add, "v:1"), "THREW 2 ArrayIndexOutOfBoundsException")
        self.assertEqual(self.ask("JENTRY.INVOKE", self.add, "v:1", 0), 41)
        self.assertEqual(self.ask("GET", "v:1"), b"41")
        cas = self.define(self.line, "CompareAndSet")
        self.assertEqual(self.ask("JENTRY.INVOKE", cas, "v:1", 41, "null"), 1)
        self.assertEqual(self.ask("EXISTS", "v:1"), 0)

    def test_a_time_to_live_stays(self):
        self.line.get("SET", "v:1", 20_000, "PX", HOUR)
        for number in range(1, 4):
            self.assertEqual(self.ask("JENTRY.INVOKE", self.add, "v:1", 1), 20_000 + number)
        self.assertTrue(HOUR // 2 < self.ask("PTTL", "v:1") <= HOUR)
        self.line.get("PEXPIRE", "v:1", 1)
        wait_for(lambda: self.ask("PTTL", "v:1") == -2, "the expiry")
        self.assertEqual(self.ask("JENTRY.INVOKE", self.add, "v:1", 5), 5)
        self.assertEqual(self.ask("PTTL", "v:1"), -1)

    def test_apply_sets_a_time_to_live(self):
        self.add_to(5, 1)
        told = self.ask("JENTRY.APPLY", -1, HOUR, -1, "do", self.add, "v:1", 1)
        self.assertEqual([told[0], told[2], told[3], told[4]], [7, b"put", b"6", b"7"])
        self.assertEqual(self.encoding(), b"int")
        self.assertTrue(HOUR // 2 < self.ask("PTTL", "v:1") <= HOUR)
        told = self.ask("JENTRY.APPLY", -1, -1, -1, "do", self.add, "v:1", 1)
        self.assertEqual([told[0], self.ask("GET", "v:1")], [8, b"8"])
        self.assertTrue(HOUR // 2 < self.ask("PTTL", "v:1") <= HOUR)

    def test_who_watches_the_key(self):
        self.line.get("SET", "v:1", 20_000)
        with self.server.open() as other:
            for more, wanted in ((1, None), (0, [b"OK"])):
                other.get("WATCH", "v:1")
                self.line.get("JENTRY.INVOKE", self.add, "v:1", more)
                other.get("MULTI")
                other.get("SET", "v:2", 1)
                self.assertEqual(other.ask("EXEC"), wanted)

    def test_who_tracks_the_key(self):
        """A client that asks for no messages about its own changes (NOLOOP) gets none."""
        with self.server.open() as other, self.server.open() as listener:
            redirect = listener.get("CLIENT", "ID")
            listener.get("SUBSCRIBE", "__redis__:invalidate")
            other.get("CLIENT", "TRACKING", "ON", "REDIRECT", redirect, "BCAST", "PREFIX", "v:", "NOLOOP")
            for number, line in ((1, other), (2, self.line), (3, other), (4, self.line)):
                self.line.get("SET", f"w:{number}", 20_000)
                self.line.get("RENAME", f"w:{number}", f"v:{number}")
                self.assertEqual(listener.take()[2], [b"v:%d" % number])
                self.assertEqual(line.get("JENTRY.INVOKE", self.add, f"v:{number}", 1), 20_001)
                if line is self.line:
                    self.assertEqual(listener.take()[2], [b"v:%d" % number])

    def test_events(self):
        self.line.get("CONFIG", "SET", "notify-keyspace-events", "KEAn")
        self.addCleanup(self.line.get, "CONFIG", "SET", "notify-keyspace-events", "")
        self.line.get("SET", "v:1", 99)
        with self.server.open() as listener:
            listener.get("PSUBSCRIBE", "*")
            self.line.get("JENTRY.INVOKE", self.add, "v:1", 1)
            self.line.get("JENTRY.INVOKE", self.add, "v:1", 0)
            self.line.get("JENTRY.INVOKE", self.add, "v:1", 1)
            self.assertEqual(
                [listener.take()[2:] for _ in range(4)],
                [[b"__keyspace@0__:v:1", b"set"], [b"__keyevent@0__:set", b"v:1"]] * 2,
            )

    def test_each_is_a_change_to_be_saved(self):
        self.line.get("SET", "v:1", 20_000)
        changes = lambda: int(self.line.info("persistence")["rdb_changes_since_last_save"])
        before = changes()
        for _ in range(7):
            self.line.get("JENTRY.INVOKE", self.add, "v:1", 1)
        self.line.get("JENTRY.INVOKE", self.add, "v:1", 0)
        self.assertEqual(changes() - before, 7)

    def test_a_key_several_times_in_one_command(self):
        self.line.get("SET", "v:1", 98)
        self.line.get("MULTI")
        for _ in range(3):
            self.line.get("JENTRY.INVOKEALL", self.add, 3, "v:1", "v:1", "v:1", 1)
        self.assertEqual(self.ask("EXEC"), [[99, 100, 101], [102, 103, 104], [105, 106, 107]])
        self.assertEqual(self.ask("GET", "v:1"), b"107")

    def test_scripts(self):
        self.line.get("SET", "v:1", 9)
        script = "redis.call('JENTRY.INVOKE', ARGV[1], KEYS[1], 5) return redis.call('GET', KEYS[1])"
        self.assertEqual(self.ask("EVAL", script, 1, "v:1", self.add), b"14")


class RawWritten(RawServer):
    """Tests what the AOF and a replica receive."""

    options = ("--appendonly", "yes", "--appendfsync", "always")

    def logged(self, *words):
        return self.server.logged(self.line, *words)

    def test_the_set_that_is_logged(self):
        plus, cas = self.define(self.line, "Plus"), self.define(self.line, "CompareAndSet")
        for keep in ([], [b"KEEPTTL"]):
            # A SET with as many arguments as the command costs least; KEEPTTL has no effect on an entry without a time to live.
            keep_of_four = [b"KEEPTTL"] if self.is_known(self.line) else keep
            self.line.get("SET", "v:1", 20_000, *(["PX", HOUR] if keep else []))
            for words, value, rest in (
                (["INVOKE", plus, "v:1"], 20_001, keep),
                (["INVOKE", self.add, "v:1", 2], 20_003, keep_of_four),
                (["INVOKEALL", plus, 1, "v:1"], 20_004, keep_of_four),
                (["INVOKEALL", self.add, 1, "v:1", 79_996], 100_000, keep),
                (["DETAIL", self.add, "v:1", -100_001], -1, keep_of_four),
            ):
                told, logged = self.logged("JENTRY." + words[0], *words[1:])
                self.assertEqual(told if isinstance(told, int) else told[0], value)
                self.assertEqual(logged, [[b"SET", b"v:1", b"%d" % value, *rest]])
            told = self.logged("JENTRY.INVOKE", cas, "v:1", -1, 5)
            self.assertEqual(told, (1, [[b"SET", b"v:1", b"5", *keep]]))
            self.assertEqual(self.logged("JENTRY.INVOKE", self.add, "v:1", 0), (5, []))

    def run_all(self):
        """Runs Add on entries of several kinds. Returns the keys and their values."""
        self.line.get("MSET", "v:1", 5, "v:2", 20_000)
        self.line.get("SET", "v:3", 99, "PX", HOUR)
        for number in range(1, 5):
            for _ in range(5):
                self.line.get("JENTRY.INVOKE", self.add, f"v:{number}", 1)
        self.line.get("MULTI")
        self.line.get("JENTRY.INVOKEALL", self.add, 4, "v:1", "v:1", "v:5", "v:5", 1)
        self.line.get("JENTRY.INVOKE", self.add, "v:3", 1)
        self.line.get("EXEC")
        keys = [f"v:{number}" for number in range(1, 6)]
        values = self.ask("MGET", *keys)
        self.assertEqual(values, [b"12", b"20005", b"105", b"5", b"2"])
        return keys, values

    def test_after_a_kill(self):
        keys, values = self.run_all()
        self.line.close()
        self.server.restart(by="kill")
        self.line = self.server.open()
        self.assertEqual(self.ask("MGET", *keys), values)
        self.assertEqual(self.encoding("v:2"), b"int")
        self.assertTrue(HOUR // 2 < self.ask("PTTL", "v:3") <= HOUR)

    def test_on_a_replica(self):
        with Server() as replica, replica.open() as other:
            other.get("REPLICAOF", "127.0.0.1", self.server.port)
            wait_for(lambda: other.info("replication").get("master_link_status") == "up", "the link")
            keys, values = self.run_all()
            self.assertEqual(self.ask("WAIT", 1, 60_000), 1)
            self.assertEqual(other.ask("MGET", *keys), values)
            self.assertTrue(HOUR // 2 < other.ask("PTTL", "v:3") <= HOUR)
            # A raw string is replicated as a SET, so a replica has an integer.
            self.assertEqual(other.ask("OBJECT", "ENCODING", "v:2"), b"int")


class Setting(ModuleTest):
    def test_it_is_off_until_it_is_set(self):
        with Server(arguments=("direct", "no")) as server, server.open() as line:
            add = self.define(line, "Add")
            self.assertEqual(line.get("CONFIG", "GET", "jentry.raw"), [b"jentry.raw", b"no"])
            self.assertNotIn("jentry.raw", server.log())
            line.get("SET", "v:1", 20_000)
            for value, encoding in (("no", b"int"), ("yes", b"raw"), ("no", b"int")):
                line.get("CONFIG", "SET", "jentry.raw", value)
                before = line.calls("get")
                line.get("JENTRY.INVOKE", add, "v:1", 1)
                self.assertEqual(line.calls("get") - before, value == "no")
                self.assertEqual(line.get("OBJECT", "ENCODING", "v:1"), encoding)
            self.assertEqual(line.get("GET", "v:1"), b"20003")

    def test_the_log_says_it(self):
        with Server(arguments=ARGUMENTS) as server, server.open() as line:
            why = "jentry.direct is no" if self.is_known(line) else "this isn't Redis 7.0 or 8.0, or Valkey 8.1"
            self.assertIn(f"integers are read and written as raw strings (jentry.raw): {why}", server.log())

    def test_integers_are_written_in_place_anyway_where_the_layout_is_known(self):
        with Server(arguments=("raw", "yes")) as server, server.open() as line:
            self.needs_known(line)
            add = self.define(line, "Add")
            line.get("SET", "v:1", 20_000)
            for _ in range(100):
                line.get("JENTRY.INVOKE", add, "v:1", 1)
            self.assertEqual([line.get("GET", "v:1"), line.get("OBJECT", "ENCODING", "v:1")], [b"20100", b"int"])
