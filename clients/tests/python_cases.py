"""Cases that the tests of the Python clients share."""
import os
import sys
import threading
import unittest

sys.path.insert(0, os.path.join(os.path.dirname(os.path.abspath(__file__)), "../python"))
import jentry
from jentry.requests import LONGEST
from running import HERE, PATIENCE

HAS_PROCESSORS = os.path.exists(os.path.join(HERE, "../processors/GetAndPut.class"))


def wrong_calls(cache, processor):
    """Returns calls of a client for threads or for asyncio that can't be sent."""
    return (
        lambda: cache.put(2**63, 1),
        lambda: cache.get(-(2**63) - 1),
        lambda: cache.get("7"),
        lambda: cache.get(7.0),
        lambda: cache.put(1, None),
        lambda: cache.invoke(1, processor, 2**63),
        lambda: cache.invoke(1, processor, jentry.Int(2**31)),
        lambda: cache.invoke(1, processor, "1"),
        lambda: cache.invoke(1, processor, *range(9)),
        lambda: cache.invoke(1, 0),
        lambda: cache.invoke_all(range(4_097), processor),
        lambda: cache.invoke_all([2**63], processor),
        lambda: cache.define(bytes(LONGEST)),
        lambda: cache.define("text"),
        lambda: cache.processor("None"),
        lambda: cache.get(1, timeout=0),
        lambda: cache.get(1, timeout=-1),
    )


class Threaded(unittest.TestCase):
    """Tests with threads."""

    def run_threads(self, count, work, meanwhile=lambda: None):
        """Runs `work(n)` on `count` threads, each of which has to end without an error."""
        wrong = []

        def guarded(n):
            try:
                work(n)
            except BaseException as e:
                wrong.append(repr(e))

        team = [threading.Thread(target=guarded, args=(n,)) for n in range(count)]
        for it in team:
            it.start()
        meanwhile()
        for it in team:
            it.join(PATIENCE)
            self.assertFalse(it.is_alive())
        self.assertEqual(wrong, [])


class Endings:
    """Failures of a server that end a stream, by the options of fake_server.py. `ends_for_all` checks that each call raises StreamEnded."""

    def test_the_server_ends(self):
        self.ends_for_all("--die")

    def test_a_reply_too_many(self):
        self.ends_for_all("--wrong")

    def test_a_reply_too_few(self):
        self.ends_for_all("--short")

    def test_another_kind_of_reply(self):
        self.ends_for_all("--other")

    def test_a_frame_of_1_mb(self):
        self.ends_for_all("--huge")

    def test_a_frame_of_no_length(self):
        self.ends_for_all("--empty")
