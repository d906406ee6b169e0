#!/usr/bin/env python3
"""test_timeouts: timeouts of calls and of connections, and clients that connect again, for threads and for asyncio."""
import asyncio
import math
import os
import sys
import threading
import time
import unittest

HERE = os.path.dirname(os.path.abspath(__file__))
sys.path[:0] = [HERE, os.path.join(HERE, "../tests")]
import jentry
import jentry_aio
from class_files import another, plus
from ending_server import CLOSED, DEAF, EndingServer
from jentry.tables import DEFINE, GET, INVOKE, PUT
from python_cases import Threaded
from running import FRONT, PATIENCE, STAND_IN, Running

SHORT = 0.2


class Timeouts(Threaded):
    """Timeouts of the client for threads."""

    def test_a_call_that_was_sent_times_out_and_its_reply_goes_to_no_other(self):
        with EndingServer() as server, jentry.Cache.connect(server.place) as cache:
            cache.put(1, 11)
            cache.put(2, 22)
            server.goes_on.clear()
            begin = time.monotonic()
            with self.assertRaises(jentry.TimedOut) as told:
                cache.get(1, timeout=SHORT)
            self.assertTrue(SHORT <= time.monotonic() - begin < PATIENCE)
            self.assertIs(told.exception.was_sent, True)
            self.assertIsInstance(told.exception, TimeoutError)
            threading.Timer(SHORT, server.goes_on.set).start()
            self.assertEqual(cache.get(2), 22)
            self.assertEqual(cache.get(1), 11)

    def test_a_call_that_waits_is_never_sent_after_its_timeout(self):
        with EndingServer() as server, jentry.Cache.connect(server.place) as cache:
            server.goes_on.clear()
            leader = threading.Thread(target=cache.get, args=(1,))
            leader.start()
            self.assertTrue(server.begins.wait(PATIENCE))
            with self.assertRaises(jentry.TimedOut) as told:
                cache.put(1, 1, timeout=SHORT)
            self.assertIs(told.exception.was_sent, False)
            server.goes_on.set()
            leader.join(PATIENCE)
            self.assertIsNone(cache.get(1))
            self.assertEqual(server.kinds(), [[GET, GET]])

    def test_the_leader_hands_on_at_its_timeout(self):
        with EndingServer() as server, jentry.Cache.connect(server.place) as cache:
            server.goes_on.clear()
            told = []

            def lead():
                with self.assertRaises(jentry.TimedOut):
                    cache.get(1, timeout=4 * SHORT)
                told.append("timed out")

            leader = threading.Thread(target=lead)
            leader.start()
            self.assertTrue(server.begins.wait(PATIENCE))
            others = [threading.Thread(target=lambda: told.append(cache.get(2))) for _ in range(8)]
            for it in others:
                it.start()
            leader.join(PATIENCE)
            self.assertEqual(told, ["timed out"])
            server.goes_on.set()
            for it in others:
                it.join(PATIENCE)
            self.assertEqual(told[1:], 8 * [None])

    def test_threads_whose_calls_time_out_at_random_get_their_own_replies(self):
        with jentry.Cache.start(*STAND_IN, "--slow", "0.004") as cache:
            timed_out = []

            def work(me):
                for n in range(60):
                    try:
                        cache.put(me, n, timeout=PATIENCE)
                        if cache.get(me, timeout=0.001 * (1 + (me + n) % 12)) != n:
                            raise AssertionError("another's reply")
                    except jentry.TimedOut:
                        timed_out.append(me)

            self.run_threads(16, work)
            self.assertGreater(len(timed_out), 0)

    def test_the_timeout_of_the_cache_and_none(self):
        with EndingServer() as server, jentry.Cache.connect(server.place, timeout=SHORT) as cache:
            server.goes_on.clear()
            with self.assertRaises(jentry.TimedOut):
                cache.get(1)
            threading.Timer(2 * SHORT, server.goes_on.set).start()
            self.assertIsNone(cache.get(1, timeout=math.inf))

    def test_a_server_that_reads_nothing(self):
        with EndingServer(DEAF) as server, jentry.Cache.connect(server.place) as cache:
            with self.assertRaises(jentry.TimedOut), cache.round(timeout=SHORT) as r:
                for key in range(4_096):
                    answer = r.invoke(key, jentry.Class(0, 0, 0), *range(8))
            with self.assertRaises(jentry.TimedOut):
                answer.result()

    def test_a_round_that_times_out(self):
        with EndingServer() as server, jentry.Cache.connect(server.place) as cache:
            server.goes_on.clear()
            with self.assertRaises(jentry.TimedOut), cache.round(timeout=SHORT) as r:
                answer = r.get(1)
            with self.assertRaises(jentry.TimedOut):
                answer.result()


class Reconnections(unittest.TestCase):
    """The client for threads that connects again."""

    def test_classes_are_defined_again(self):
        with EndingServer() as server, jentry.Cache.connect(server.place, reconnect=PATIENCE) as cache:
            one, other = cache.define(another(1)), cache.define(another(2))
            self.assertEqual((one.number, other.number), (0, 1))
            server.end_connections()
            cache.put(7, 41)
            self.assertEqual(cache.invoke(7, other), 42)
            self.assertEqual((other.number, cache.reconnections), (1, 1))
            self.assertEqual(server.kinds()[1], [DEFINE, DEFINE, PUT, INVOKE])
            self.assertEqual([text[1:] for text in server.received[1][:2]], [another(1), another(2)])

    def test_a_class_gets_the_number_of_the_new_server(self):
        with EndingServer(3) as server, jentry.Cache.connect(server.place, reconnect=PATIENCE) as cache:
            cache.define(plus())
            again = cache.define(plus())
            self.assertEqual(again.number, 1)
            with self.assertRaises(jentry.OutcomeUnknown):
                cache.get(1)
            cache.put(7, 41)
            self.assertEqual((cache.invoke(7, again), again.number), (42, 0))

    def test_a_call_that_was_out_is_not_sent_again(self):
        with EndingServer(2) as server, jentry.Cache.connect(server.place, reconnect=PATIENCE) as cache:
            cache.put(7, 1)
            with self.assertRaises(jentry.OutcomeUnknown) as told:
                cache.put(7, 2)
            self.assertIsInstance(told.exception, jentry.StreamEnded)
            self.assertIsNone(cache.get(7))
            self.assertEqual(server.kinds(), [[PUT, PUT], [GET]])

    def test_calls_that_wait_go_to_the_new_server(self):
        with EndingServer(1) as server, jentry.Cache.connect(server.place, reconnect=PATIENCE) as cache:
            told, keys = [], list(range(16))

            def work(key):
                try:
                    cache.put(key, key)
                    told.append("put")
                except jentry.OutcomeUnknown:
                    told.append("unknown")

            threads = [threading.Thread(target=work, args=(key,)) for key in keys]
            for it in threads:
                it.start()
            for it in threads:
                it.join(PATIENCE)
            sent = [text[8] for texts in server.received for text in texts]
            self.assertEqual(sorted(sent), keys)
            self.assertEqual(told.count("unknown"), len(server.received[0]))

    def test_a_server_that_closes_at_once(self):
        with EndingServer(1, CLOSED, CLOSED) as server, jentry.Cache.connect(server.place, reconnect=PATIENCE) as cache:
            with self.assertRaises(jentry.OutcomeUnknown):
                cache.get(1)
            # The client may have written before each of the two servers closed.
            for _ in range(2):
                try:
                    cache.put(1, 1)
                    break
                except jentry.StreamEnded:
                    pass
            cache.put(2, 2)
            self.assertEqual((cache.get(2), cache.reconnections), (2, 3))
            self.assertIn(server.kinds(), ([[GET], [PUT, GET]], [[GET], [PUT, PUT, GET]]))

    def test_a_server_that_is_away(self):
        server = EndingServer()
        with jentry.Cache.connect(server.place, reconnect=SHORT) as cache:
            cache.put(1, 1)
            server.__exit__()
            begin = time.monotonic()
            with self.assertRaisesRegex(jentry.NotConnected, "there is no other: no connection to "):
                cache.get(1)
            self.assertGreaterEqual(time.monotonic() - begin, SHORT)
            with self.assertRaises(jentry.TimedOut) as told:
                cache.get(1, timeout=SHORT / 4)
            self.assertIs(told.exception.was_sent, False)

    def test_a_class_that_the_new_server_denies(self):
        with EndingServer(classes=1) as server, jentry.Cache.connect(server.place, reconnect=PATIENCE) as cache:
            processor = cache.define(another(1))
            server.end_connections()
            server._classes = 0
            with self.assertRaises(jentry.Denied) as told:
                cache.invoke(1, processor)
            self.assertEqual(told.exception.name, "UnknownClass")

    def test_without_reconnect_the_stream_stays_ended(self):
        with EndingServer() as server, jentry.Cache.connect(server.place) as cache:
            cache.put(1, 1)
            server.end_connections()
            for _ in range(2):
                with self.assertRaises(jentry.NotSent):
                    cache.get(1)
            self.assertEqual(len(server.received), 1)

    def test_closed(self):
        with EndingServer() as server:
            cache = jentry.Cache.connect(server.place, reconnect=PATIENCE)
            cache.put(1, 1)
            cache.close()
            with self.assertRaises(jentry.NotSent):
                cache.get(1)
            self.assertEqual(len(server.received), 1)

    def test_no_address_and_wrong_options(self):
        with self.assertRaisesRegex(jentry.NotConnected, "no connection to /none/socket: No such file"):
            jentry.Cache.connect("/none/socket")
        for options in ({"reconnect": -1}, {"requests": 0}, {"requests": 4_097}, {"timeout": 0}):
            with self.assertRaises(jentry.WrongArgument):
                jentry.Cache.connect("/none/socket", **options)


class InALoop(unittest.IsolatedAsyncioTestCase):
    """Timeouts and new connections of the client for asyncio."""

    async def asyncSetUp(self):
        self.server = None
        asyncio.get_running_loop().set_debug(False)

    def tearDown(self):
        self.server.__exit__()

    async def connect(self, *plans, **options):
        self.server = EndingServer(*plans)
        cache = await jentry_aio.connect(self.server.place, **options)
        self.addAsyncCleanup(cache.close)
        return cache

    async def test_a_call_that_was_sent_times_out(self):
        cache = await self.connect()
        await asyncio.gather(cache.put(1, 11), cache.put(2, 22))
        self.server.goes_on.clear()
        with self.assertRaises(jentry.TimedOut) as told:
            await cache.get(1, timeout=SHORT)
        self.assertIs(told.exception.was_sent, True)
        self.server.goes_on.set()
        self.assertEqual(await cache.get(2, timeout=PATIENCE), 22)

    async def test_a_call_that_waits_is_never_sent_after_its_timeout(self):
        cache = await self.connect()
        self.server.goes_on.clear()
        out = []
        for key in (1, 2):
            out.append(cache.get(key))
            await asyncio.sleep(SHORT / 4)
        with self.assertRaises(jentry.TimedOut) as told:
            await cache.put(1, 1, timeout=SHORT)
        self.assertIs(told.exception.was_sent, False)
        self.server.goes_on.set()
        self.assertEqual(await asyncio.gather(*out, cache.get(1)), 3 * [None])
        self.assertEqual(self.server.kinds(), [3 * [GET]])

    async def test_classes_are_defined_again(self):
        cache = await self.connect(reconnect=PATIENCE)
        one, other = await cache.define(another(1)), await cache.define(another(2))
        self.server.end_connections()
        await asyncio.wait_for(asyncio.shield(cache._stream._reading), PATIENCE)
        await cache.put(7, 41)
        self.assertEqual(await cache.invoke(7, other), 42)
        self.assertEqual((one.number, other.number, cache.reconnections), (0, 1, 1))
        self.assertEqual(self.server.kinds()[1], [DEFINE, DEFINE, PUT, INVOKE])

    async def test_a_call_that_was_out_is_not_sent_again(self):
        cache = await self.connect(2, reconnect=PATIENCE)
        await cache.put(7, 1)
        with self.assertRaises(jentry.OutcomeUnknown):
            await cache.put(7, 2)
        self.assertIsNone(await cache.get(7))
        self.assertEqual(self.server.kinds(), [[PUT, PUT], [GET]])

    async def test_a_server_that_is_away(self):
        cache = await self.connect(1, reconnect=SHORT)
        with self.assertRaises(jentry.OutcomeUnknown):
            await cache.get(1)
        self.server.__exit__()
        told = await asyncio.gather(*(cache.get(key) for key in range(8)), return_exceptions=True)
        self.assertEqual([type(it) for it in told], 8 * [jentry.NotConnected])
        with self.assertRaises(jentry.TimedOut) as timed:
            await cache.get(1, timeout=SHORT / 4)
        self.assertIs(timed.exception.was_sent, False)
        self.server = EndingServer()

    async def test_without_reconnect_the_stream_stays_ended(self):
        cache = await self.connect(1)
        with self.assertRaises(jentry.OutcomeUnknown):
            await cache.get(1)
        for _ in range(2):
            with self.assertRaises(jentry.NotSent):
                await cache.get(1)
        self.assertEqual(len(self.server.received), 1)

    async def test_no_address_and_wrong_options(self):
        self.server = EndingServer()
        with self.assertRaisesRegex(jentry.NotConnected, "no connection to /none/socket"):
            await jentry_aio.connect("/none/socket")
        for options in ({"reconnect": -1}, {"requests": 0}, {"timeout": 0}):
            with self.assertRaises(jentry.WrongArgument):
                await jentry_aio.connect("/none/socket", **options)


@unittest.skipUnless(FRONT, "the front isn't built")
class Limits(unittest.TestCase):
    """A front with fewer requests a round than the clients send by default."""

    def test_rounds_are_cut_by_the_limit_of_the_front(self):
        with Running("--requests", "10", server=STAND_IN) as front:
            with jentry.Cache.connect(front.place, requests=10) as cache:
                with cache.round() as r:
                    puts = [r.put(key, -key) for key in range(95)]
                self.assertEqual([it.result() for it in puts], 95 * [None])
                self.assertEqual([cache.get(key) for key in range(95)], [-key for key in range(95)])
            with jentry.Cache.connect(front.place) as cache:
                with self.assertRaises(jentry.StreamEnded), cache.round() as r:
                    r.put(1, 1)
                    for key in range(95):
                        r.get(key)
            self.assertEqual(asyncio.run(self.gather(front.place)), [-key for key in range(95)])

    async def gather(self, place):
        async with await jentry_aio.connect(place, requests=10) as cache:
            return await asyncio.gather(*(cache.get(key) for key in range(95)))


if __name__ == "__main__":
    unittest.main()
