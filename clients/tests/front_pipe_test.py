#!/usr/bin/env python3
"""front_pipe_test: batches that don't fit into the server's pipe. running.py has the requirements."""
import array
import fcntl
import os
import signal
import sys
import termios
import time
import unittest

from frames import DONE, END, ENDED, denied, get, invoke, put, value
from running import PATIENCE, STAND_IN, FrontTest, Running, is_ended, take

# 86,021 bytes of one batch, more than the pipe holds.
ROUND = b"".join(put(key, key) for key in range(4_096)) + END
PIPE = 65_536
REPLIES = 4_096 * DONE + ENDED
SOON = 5
"""Seconds within which the front itself answers, on a machine with other work."""

# Answers the definitions of the built-in processors, and then the next round as soon as it begins.
HASTY = f"""
import os, sys
while not sys.stdin.buffer.read1(65_536).endswith({END!r}):
    pass
os.write(1, 7 * {denied(4)!r} + {ENDED!r})
os.read(0, 1)
os.write(1, {REPLIES!r})
sys.stdin.buffer.raw.read(0)
os.kill(os.getpid(), {int(signal.SIGSTOP)})
"""


def bytes_in_pipe(process):
    """Returns the number of bytes that wait in the pipe at the standard input of a process."""
    pipe, count = os.open(f"/proc/{process}/fd/0", os.O_RDONLY | os.O_NONBLOCK), array.array("i", [0])
    try:
        fcntl.ioctl(pipe, termios.FIONREAD, count)
    finally:
        os.close(pipe)
    return count[0]


def is_stopped(process):
    """Returns whether all threads of a process are stopped. A thread that has a signal to stop may still finish its read."""
    states = []
    for task in os.listdir(f"/proc/{process}/task"):
        with open(f"/proc/{process}/task/{task}/stat", encoding="utf-8") as stat:
            states.append(stat.read().rsplit(")", 1)[1].split()[0])
    return set(states) == {"T"}


def wait_until(is_so):
    """Waits until `is_so()` is true, for PATIENCE seconds at most, and returns its last value."""
    end = time.monotonic() + PATIENCE
    while not is_so() and time.monotonic() < end:
        time.sleep(0.02)
    return is_so()


class ServerThatReadsNothing(FrontTest):
    """The server is stopped, and a batch fills its pipe. Nobody but the round's sender waits for that."""

    def setUp(self):
        self.front = Running("--http", "0", "--stall", "1", "--drain", "4")
        self.addCleanup(self.front.__exit__, None, None, None)
        self.line = self.front.open()
        self.addCleanup(self.line.close)
        self.server = self.front.server()
        os.kill(self.server, signal.SIGSTOP)
        self.addCleanup(self.wake)
        self.assertTrue(wait_until(lambda: is_stopped(self.server)))
        self.line.sendall(ROUND)
        self.assertTrue(wait_until(lambda: bytes_in_pipe(self.server) == PIPE), bytes_in_pipe(self.server))

    def wake(self):
        try:
            os.kill(self.server, signal.SIGCONT)
        except ProcessLookupError:
            pass

    def open(self):
        """Opens a connection whose replies have to come soon."""
        line = self.front.open()
        self.addCleanup(line.close)
        line.settimeout(SOON)
        return line

    def test_what_needs_no_server_is_answered(self):
        for _ in range(3):
            self.ask(self.open(), END + invoke(0, 7) + END, ENDED + denied(1) + ENDED)
        self.wake()
        self.told(self.line, REPLIES)
        self.ask(self.open(), get(4_095) + END, value(4_095) + ENDED)

    def test_it_is_not_healthy_and_says_why(self):
        self.front.logged("WARN .*the server hasn't answered a batch for 1 s")
        status, _, text = self.front.http("/healthz", timeout=SOON)
        self.assertEqual(status, 503)
        self.assertRegex(text, r"^the server hasn't answered a batch for [1-9]\d* seconds\n$")
        metrics = self.front.metrics()
        self.assertGreaterEqual(metrics["jentry_batch_age_seconds"], 1)
        self.assertLess(metrics["jentry_counts_age_seconds"], 1)
        self.wake()
        self.told(self.line, REPLIES)
        self.assertEqual(self.front.http("/healthz")[0], 200)

    def test_the_front_sleeps(self):
        self.ask(self.open(), END, ENDED)
        before = self.front.processor_seconds()
        time.sleep(1)
        self.assertLess(self.front.processor_seconds() - before, 0.05)

    def test_who_hangs_up_is_seen(self):
        other = self.open()
        other.sendall(put(-1, 1) + END)
        self.ask(self.open(), END, ENDED)
        self.assertEqual(self.front.metrics()["jentry_waiting_rounds"], 2)
        other.close()
        self.assertTrue(wait_until(lambda: self.front.metrics()["jentry_waiting_rounds"] == 1))
        self.wake()
        self.told(self.line, REPLIES)
        self.ask(self.line, get(-1) + END, value(None) + ENDED)

    def test_a_drain_closes_who_waits_for_nothing(self):
        idle = self.open()
        self.ask(idle, END, ENDED)
        begun = time.monotonic()
        self.front.process.terminate()
        self.assertTrue(is_ended(idle))
        self.assertLess(time.monotonic() - begun, 3)
        self.wake()
        self.told(self.line, REPLIES)
        self.assertEqual(self.front.process.wait(PATIENCE), -signal.SIGTERM)
        self.assertIn("with 0 open connections", self.front.logged("ended by ")[0])

    def test_its_end_is_the_fronts(self):
        os.kill(self.server, signal.SIGKILL)
        self.assertTrue(is_ended(self.line))
        self.assertEqual(self.front.end(), 3)


class ServerThatReadsLittle(FrontTest):
    def test_all_of_a_batch_arrives(self):
        with Running(server=STAND_IN + ["--pipe", "4096"]) as front:
            lines = [front.open() for _ in range(4)]
            for line in lines:
                self.addCleanup(line.close)
            for turn in range(3):
                texts = [b"".join(put(key, turn * key + n) for key in range(n, 16_000, 4)) + END for n in range(4)]
                for line, text in zip(lines, texts):
                    line.sendall(text)
                for line in lines:
                    self.told(line, 4_000 * DONE + ENDED)
                for n, line in enumerate(lines):
                    keys = range((n + 1) % 4, 16_000, 4)
                    wanted = b"".join(value(turn * key + (n + 1) % 4) for key in keys)
                    self.ask(line, b"".join(get(key) for key in keys) + END, wanted + ENDED)

    def test_replies_to_a_round_that_it_has_not_got_are_invalid(self):
        with Running(server=[sys.executable, "-c", HASTY]) as front, front.open() as a:
            a.sendall(ROUND)
            with self.assertRaises((EOFError, ConnectionError)):
                take(a, 1)
            os.kill(front.server(), signal.SIGCONT)
            self.assertEqual(front.end(), 3)


if __name__ == "__main__":
    unittest.main()
