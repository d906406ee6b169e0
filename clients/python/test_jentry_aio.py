#!/usr/bin/env python3
"""test_jentry_aio: the client for asyncio, on the fake server and on the built program, which JENTRY_PROGRAM names if there is one."""
import asyncio
import os
import sys
import unittest

HERE = os.path.dirname(os.path.abspath(__file__))
sys.path[:0] = [HERE, os.path.join(HERE, "../tests")]
import jentry
import jentry_aio
from class_files import EXAMPLES, WITHDRAW_TEXTS, heavy, plus, with_strings, withdraw
from python_cases import HAS_PROCESSORS, Endings, wrong_calls
from running import PATIENCE, PROGRAM, SERVER, STAND_IN

THREW_9 = (jentry.ProcessorThrew, 9, "IllegalStateException")


class Loop(unittest.TestCase, Endings):
    """Tests of the client for asyncio."""

    def run_in_loop(self, work, server=SERVER):
        async def limited():
            async with await jentry_aio.start(*server) as cache:
                await asyncio.wait_for(work(cache), PATIENCE)

        asyncio.run(limited())

    def test_the_plain_requests(self):
        async def work(cache):
            self.assertIsNone(await cache.get(7))
            self.assertIsNone(await cache.put(7, 41))
            self.assertEqual(await cache.get(7), 41)
            self.assertIs(await cache.remove(7), True)
            self.assertIs(await cache.contains(7), False)
            with self.assertRaises(jentry.Denied):
                await cache.invoke(7, jentry.Class(5, 0, 0))

        self.run_in_loop(work)

    def test_many_tasks(self):
        async def work(cache):
            processor = await cache.define(plus())
            await cache.put(1, 0)
            told = await asyncio.gather(*(cache.invoke(1, processor) for _ in range(10_000)))
            self.assertEqual(sorted(told), list(range(1, 10_001)))
            keys = await asyncio.gather(*(cache.put(key, -key) for key in range(10_000)))
            self.assertEqual(set(keys), {None})
            self.assertEqual(
                await asyncio.gather(*(cache.get(key) for key in range(10_000))), [-key for key in range(10_000)]
            )

        self.run_in_loop(work)

    def test_a_cancelled_task_leaves_others_their_replies(self):
        async def work(cache):
            for key in range(100):
                await cache.put(key, 7 * key)
            for turns in range(4):
                tasks = [asyncio.ensure_future(self.get(cache, key)) for key in range(100)]
                for _ in range(turns):
                    await asyncio.sleep(0)
                for task in tasks[::2]:
                    task.cancel()
                told = await asyncio.gather(*tasks, return_exceptions=True)
                self.assertEqual(told[1::2], [7 * key for key in range(1, 100, 2)])
                self.assertTrue(all(isinstance(it, asyncio.CancelledError) for it in told[::2]))
            self.assertEqual(await cache.get(3), 21)

        self.run_in_loop(work, STAND_IN + ["--slow", "0.002"])

    async def get(self, cache, key):
        return await cache.get(key)

    def ends_for_all(self, option):
        async def work(cache):
            await asyncio.gather(*(cache.put(key, 1) for key in range(10)))
            told = await asyncio.gather(*(cache.get(key) for key in range(10)), return_exceptions=True)
            self.assertTrue(all(isinstance(it, jentry.StreamEnded) for it in told))
            with self.assertRaises(jentry.StreamEnded):
                await cache.get(1)

        self.run_in_loop(work, STAND_IN + [option, "2"])

    @unittest.skipUnless(PROGRAM, "the program isn't built")
    def test_the_server_is_killed_in_mid_round(self):
        async def work(cache):
            processor = await cache.define(heavy())
            out = [asyncio.ensure_future(self.invoke_all(cache, processor))]
            await asyncio.sleep(0.05)
            out += [asyncio.ensure_future(self.get(cache, key)) for key in range(8)]
            await asyncio.sleep(0)
            self.assertEqual([it.done() for it in out], 9 * [False])
            cache._child.kill()
            told = await asyncio.gather(*out, return_exceptions=True)
            self.assertEqual([type(it) for it in told], 9 * [jentry.OutcomeUnknown])
            with self.assertRaises(jentry.StreamEnded):
                await cache.get(1)

        self.run_in_loop(work)

    async def invoke_all(self, cache, processor):
        return await cache.invoke_all(range(4_096), processor)

    def test_what_can_not_be_sent_is_not_sent(self):
        async def work(cache):
            processor = await cache.define(plus())
            for wrong in wrong_calls(cache, processor):
                with self.subTest(wrong=wrong), self.assertRaises(jentry.WrongArgument) as told:
                    await wrong()
                self.assertIsInstance(told.exception, ValueError)
            self.assertIsNone(await cache.get(1))

        self.run_in_loop(work)

    def test_processors(self):
        async def work(cache):
            processor = await cache.define(plus())
            self.assertEqual((processor.number, processor.steps, processor.words), (0, 14, 0))
            await cache.put(7, 41)
            self.assertEqual(await cache.invoke(7, processor), 42)
            with self.assertRaises(jentry.ProcessorThrew) as told:
                await cache.invoke(8, processor)
            self.assertEqual((told.exception.number, told.exception.name), (3, "NullPointerException"))
            told = await cache.invoke_all([7, 8, 7], processor)
            self.assertEqual(list(told), [7, 8])
            self.assertEqual(told[7], 43)
            self.assertIsInstance(told[8], jentry.ProcessorThrew)

        self.run_in_loop(work)

    def test_tasks_of_many_keys_beside_single_calls(self):
        async def many(cache, processor, me):
            keys = range(1_000 * me, 1_000 * me + 700)
            await asyncio.gather(*(cache.put(key, key) for key in keys))
            told = await cache.invoke_all(keys, processor)
            return [told[key] - key for key in keys] + [await cache.get(key) - key for key in keys[:5]]

        async def single(cache, processor):
            return [await cache.invoke(-1, processor) for _ in range(50)]

        async def work(cache):
            processor = await cache.define(plus())
            await cache.put(-1, 0)
            told = await asyncio.gather(
                *(many(cache, processor, me) for me in range(8)), *(single(cache, processor) for _ in range(8))
            )
            self.assertEqual(told[:8], 8 * [705 * [1]])
            self.assertEqual(sorted(sum(told[8:], [])), list(range(1, 401)))
            self.assertTrue(all(it == sorted(it) for it in told[8:]))

        self.run_in_loop(work)

    def test_closed(self):
        async def work(cache):
            await cache.close()
            await cache.close()
            with self.assertRaises(jentry.StreamEnded):
                await cache.get(1)

        self.run_in_loop(work)

    @unittest.skipUnless(PROGRAM, "the program isn't built")
    def test_booleans(self):
        async def work(cache):
            with open(os.path.join(EXAMPLES, "Reserve.class"), "rb") as file:
                reserve = await cache.define(file.read())
            await cache.put(7, 41)
            self.assertIs(await cache.invoke(7, reserve, 50), False)
            self.assertIs(await cache.invoke(7, reserve, 40, True), True)
            self.assertEqual(await cache.get(7), 41)
            self.assertEqual(await cache.invoke_all([7, 8], reserve, 40, False), {7: True})
            self.assertEqual(await cache.get(7), 1)

        self.run_in_loop(work)

    def test_exceptions_that_a_class_throws(self):
        async def work(cache):
            other = await cache.define(with_strings({32: b"others"}))
            processor = await cache.define(withdraw())
            await cache.put(8, 1)
            told = await asyncio.gather(
                cache.invoke(7, other),
                cache.invoke(7, processor),
                cache.invoke(7, jentry.Class(processor.number, 0, 0)),
                cache.invoke(8, processor),
                return_exceptions=True,
            )
            self.assertEqual([(type(it), it.number, it.name) for it in told[:3]], 3 * [THREW_9])
            self.assertEqual([it.text for it in told[:3]], ["others", "insufficient funds", None])
            self.assertEqual(told[3], 2)
            told = await cache.invoke_all([7, 8], processor)
            self.assertEqual((told[7].text, told[8]), ("insufficient funds", 3))

        self.run_in_loop(work, STAND_IN + ["--throw", "9:32"])

    @unittest.skipUnless(PROGRAM, "the program isn't built")
    def test_exceptions_of_the_program(self):
        async def work(cache):
            processor = await cache.define(withdraw())
            await cache.put(7, 41)
            told = await asyncio.gather(*(cache.invoke(7, processor, it) for it in (0, 42)), return_exceptions=True)
            self.assertEqual([(it.number, it.text) for it in told], [(8, WITHDRAW_TEXTS[15]), (9, WITHDRAW_TEXTS[32])])
            self.assertEqual(await cache.get(7), 41)

        self.run_in_loop(work)

    @unittest.skipUnless(PROGRAM, "the program isn't built")
    def test_a_refused_class(self):
        async def work(cache):
            with self.assertRaises(jentry.Refused) as told:
                await cache.define(b"none")
            self.assertEqual((told.exception.number, told.exception.name), (3, "BadMagic"))

        self.run_in_loop(work)

    @unittest.skipUnless(PROGRAM and HAS_PROCESSORS, "the program or the class files of the processors aren't there")
    def test_built_in_processors(self):
        async def work(cache):
            told = await asyncio.gather(*(cache.put_if_absent(1, n) for n in range(32)))
            self.assertEqual(sorted(told), 31 * [False] + [True])
            self.assertIs(await cache.replace(1, 5), True)
            self.assertEqual(await cache.get_and_remove(1), 5)
            self.assertEqual((await cache.define(plus())).number, 3)

        self.run_in_loop(work)


if __name__ == "__main__":
    unittest.main()
