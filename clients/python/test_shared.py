#!/usr/bin/env python3
"""test_shared: threads, tasks and connections that share a cache through the front. JENTRY_FRONT names the front and JENTRY_PROGRAM the built
program, if they are there."""
import asyncio
import os
import subprocess
import sys
import unittest

HERE = os.path.dirname(os.path.abspath(__file__))
sys.path[:0] = [HERE, os.path.join(HERE, "../tests")]
import jentry
import jentry_aio
from class_files import EXAMPLES, plus
from python_cases import Threaded
from running import FRONT, PATIENCE, STAND_IN, Running


@unittest.skipUnless(FRONT, "the front isn't built")
class Shared(Threaded):
    """Python threads, asyncio and examples/frames.py share a cache through the front."""

    def test_all_on_one_cache(self):
        with Running() as front, jentry.Cache.connect(front.place) as cache:
            processor = cache.define(plus())
            cache.put(1, 0)
            self.run_threads(
                8, lambda _: self.add(cache, processor), meanwhile=lambda: asyncio.run(self.add_in_loop(front.place))
            )
            self.assertEqual(cache.get(1), 8 * 50 + 400)
            self.assertEqual(self.lines(front, b"get 1\nput 2 5\nend\n"), b"value 800\ndone\nend\n")
            self.assertEqual(cache.get(2), 5)

    def add(self, cache, processor):
        for _ in range(50):
            cache.invoke(1, processor)

    async def add_in_loop(self, place):
        async with await jentry_aio.connect(place) as cache:
            processor = await cache.define(plus())
            await asyncio.gather(*(cache.invoke(1, processor) for _ in range(400)))

    def lines(self, front, text):
        """Sends these lines through examples/frames.py to the front. Returns the replies as examples/frames.py prints them."""
        frames = [sys.executable, os.path.join(EXAMPLES, "frames.py")]
        sent = subprocess.run(frames, input=text, stdout=subprocess.PIPE, timeout=PATIENCE, check=True).stdout
        with front.open() as line:
            line.sendall(sent)
            line.shutdown(1)
            replies = b"".join(iter(lambda: line.recv(65_536), b""))
        return subprocess.run(
            frames + ["--replies"], input=replies, stdout=subprocess.PIPE, timeout=PATIENCE, check=True
        ).stdout

    def test_the_front_ends(self):
        with Running(server=STAND_IN + ["--die", "3"]) as front, jentry.Cache.connect(front.place) as cache:
            cache.put(1, 1)
            cache.put(1, 2)
            with self.assertRaises(jentry.StreamEnded):
                cache.put(1, 3)

    def test_tcp(self):
        with Running(tcp=True) as front, jentry.Cache.connect(front.place) as cache:
            cache.put(1, 1)
            self.assertEqual(cache.get(1), 1)


if __name__ == "__main__":
    unittest.main()
