"""Tests JENTRY.APPLY: a run that reports the entry before and after it, and sets its time to live."""
from commands_test import NO_KEY, OneServer
from module_test import NO_CLASS
from servers import row_classes


class Applied(OneServer):
    def apply(self, *words):
        return self.ask("JENTRY.APPLY", *words)

    def test_replies(self):
        cas = self.define(self.line, "CompareAndSet")
        self.assertEqual(self.apply(-1, -1, -1, "do", self.add, "v:1", 5), [5, b"Long", b"put", None, b"5", 23, 0])
        self.assertEqual(self.apply(-1, -1, -1, "do", self.add, "v:1", 5), [10, b"Long", b"put", b"5", b"10", 29, 0])
        self.assertEqual(self.apply(-1, -1, -1, "do", cas, "v:1", 1, 2)[:5], [0, b"Integer", b"keep", b"10", b"10"])
        self.assertEqual(
            self.apply(-1, -1, -1, "do", cas, "v:1", 10, "null")[:5], [1, b"Integer", b"delete", b"10", None]
        )
        self.assertEqual(self.ask("EXISTS", "v:1"), 0)
        self.assertEqual(self.apply(-1, -1, -1, "do", cas, "v:1", 1, 2)[:5], [0, b"Integer", b"keep", None, None])

    def test_booleans(self):
        reserve = self.define(self.line, "Reserve")
        self.line.get("SET", "v:1", 41)
        for words, wanted in (
            (["dry", reserve, "v:1", 40, "false"], [1, b"Boolean", b"put", b"41", b"1", 51, 0]),
            (["do", reserve, "v:1", 40, "true"], [1, b"Boolean", b"keep", b"41", b"41", 48, 0]),
            (["do", reserve, "v:1", 40], [1, b"Boolean", b"put", b"41", b"1", 45, 0]),
            (["do", reserve, "v:1", 40], [0, b"Boolean", b"keep", b"1", b"1", 38, 0]),
            (["do", reserve, "v:2", 40], [None, b"null", b"keep", None, None, 22, 0]),
        ):
            self.assertEqual(self.apply(-1, -1, -1, *words), wanted)

    def test_a_put_of_the_value_that_is_there_is_an_update(self):
        self.line.get("SET", "v:1", 10, "PX", 100_000)
        self.assertEqual(self.ask("JENTRY.DETAIL", self.add, "v:1", 0)[2], b"keep")
        self.assertEqual(
            self.apply(-1, 50_000, 5_000, "do", self.add, "v:1", 0), [10, b"Long", b"put", b"10", b"10", 29, 0]
        )
        self.assertTrue(5_000 < self.ask("PTTL", "v:1") <= 50_000)

    def test_a_removal_of_no_entry(self):
        removes = self.line.get("JENTRY.DEFINE", row_classes().named("SetRemove"))[0]
        self.assertEqual(self.apply(0, 0, 0, "do", removes, "v:1")[2:5], [b"keep", None, None])
        self.line.get("SET", "v:1", 5)
        self.assertEqual(self.apply(-1, -1, -1, "do", removes, "v:1")[2:5], [b"delete", b"5", None])
        self.assertEqual(self.ask("EXISTS", "v:1"), 0)

    def times(self, created, updated, accessed, before, argument, mode="do"):
        """Returns the time to live in ms after an APPLY on an entry that had 100 s (-1 for none, -2 for no entry), and the reply."""
        cas = self.define(self.line, "CompareAndSet")
        self.line.get("DEL", "v:1")
        if before is not None:
            self.line.get("SET", "v:1", before, "PX", 100_000)
        told = self.apply(
            created,
            updated,
            accessed,
            mode,
            cas,
            "v:1",
            "null" if before is None else before if argument else before + 1,
            7,
        )
        return self.ask("PTTL", "v:1"), told

    def test_times_of_a_created_entry(self):
        self.assertEqual(self.times(-1, 5, 5, None, True)[0], -1)
        self.assertEqual(self.times(-2, 5, 5, None, True)[0], -1)
        self.assertTrue(0 < self.times(50_000, 5, 5, None, True)[0] <= 50_000)
        left, told = self.times(0, 5, 5, None, True)
        self.assertEqual((left, told[2:5]), (-2, [b"put", None, None]))

    def test_times_of_an_updated_entry(self):
        self.assertTrue(90_000 < self.times(5, -1, 5, 1, True)[0] <= 100_000)
        self.assertEqual(self.times(5, -2, 5, 1, True)[0], -1)
        self.assertTrue(0 < self.times(5, 50_000, 5, 1, True)[0] <= 50_000)
        left, told = self.times(5, 0, 5, 1, True)
        self.assertEqual((left, told[2:5]), (-2, [b"put", b"1", None]))

    def test_times_of_an_accessed_entry(self):
        self.assertTrue(90_000 < self.times(5, 5, -1, 1, False)[0] <= 100_000)
        self.assertEqual(self.times(5, 5, -2, 1, False)[0], -1)
        self.assertTrue(0 < self.times(5, 5, 50_000, 1, False)[0] <= 50_000)
        left, told = self.times(5, 5, 0, 1, False)
        self.assertEqual((left, told[2:5]), (-2, [b"keep", b"1", None]))

    def test_dry_leaves_the_entry(self):
        for times, before, argument in [
            ((-1, -1, -1), 1, True),
            ((0, 0, 0), 1, True),
            ((0, 0, 0), 1, False),
            ((5, 5, 5), 1, True),
            ((5, 5, 5), None, True),
        ]:
            left, told = self.times(*times, before, argument, "dry")
            self.assertTrue(left == -2 if before is None else 90_000 < left <= 100_000, left)
            self.assertEqual(self.ask("GET", "v:1"), None if before is None else b"1")
            if 5 not in times:
                self.assertEqual(told, self.times(*times, before, argument)[1])
        removes = self.line.get("JENTRY.DEFINE", row_classes().named("SetRemove"))[0]
        self.line.get("SET", "v:1", 5)
        self.assertEqual(self.apply(-1, -1, -1, "dry", removes, "v:1")[2:5], [b"delete", b"5", None])
        self.assertEqual(self.ask("GET", "v:1"), b"5")

    def test_errors(self):
        for times in (("x", -1, -1), (-1, -3, -1), (-1, -1, ""), (-1, "1.5", -1)):
            self.fails(self.apply(*times, "do", self.add, "v:1", 1), "ERR a time is milliseconds, 0, -1 or -2")
        self.fails(self.apply(-1, -1, -1, "did", self.add, "v:1", 1), "ERR the mode is do or dry")
        self.fails(self.apply(-1, -1, -1, "do", "0" * 40, "v:1", 1), NO_CLASS)
        self.fails(self.apply(-1, -1, -1, "do", self.add, "v", 1), NO_KEY)
        self.fails(
            self.apply(-1, -1, -1, "do", self.add, "v:1", "x"), "ERR argument 1 is no long, Integer, Boolean or null"
        )
        self.fails(self.apply(-1, -1, -1, "do", self.add, "v:1", *range(9)), "ERR more than eight arguments")
        self.fails(self.apply(-1, -1, -1, "DRY", self.add, "v:1"), "THREW 2 ArrayIndexOutOfBoundsException")
        self.fails(
            self.apply(2**63 - 1, -1, -1, "do", self.add, "v:1", 1), "ERR invalid expire time in 'set' command"
        )
        self.line.get("LPUSH", "v:2", 1)
        self.fails(
            self.apply(-1, -1, -1, "do", self.add, "v:2", 1),
            "WRONGTYPE Operation against a key holding the wrong kind of value",
        )
        self.assertEqual(self.ask("EXISTS", "v:1"), 0)
