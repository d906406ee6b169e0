#!/usr/bin/env python3
"""front_test: a front with one connection and with many. running.py has the requirements."""
import os
import random
import resource
import socket
import struct
import threading
import time
import unittest

from class_files import another, plus, ratio
from frames import DONE, END, ENDED, define, denied, frame, get, invoke, invoke_all, put, result, results, value
from running import PATIENCE, PROGRAM, STAND_IN, FrontTest, Running, is_ended, take, take_frame

MALFORMED = [
    b"\0\0\0\0",
    b"\0\2\0\1",
    frame(b"\0"),
    frame(b"\x09"),
    frame(b"\x0a"),
    frame(b"\xff"),
    frame(b"\2" + bytes(15)),
    frame(b"\2" + bytes(17)),
    frame(b"\3"),
    frame(b"\x08\0"),
    frame(b"\6" + bytes(12)),
    frame(b"\6" + bytes(12) + b"\x09"),
    frame(b"\6" + bytes(12) + b"\1\5"),
    frame(b"\6" + bytes(12) + b"\1\1" + bytes(7)),
    frame(b"\6" + bytes(13) + b"\0"),
    frame(b"\7" + bytes(6)),
    frame(b"\7" + bytes(4) + b"\0\2" + bytes(8) + b"\0"),
    frame(b"\7" + bytes(4) + b"\xff\xff\0"),
]


class OneConnection(FrontTest):
    def test_bytes_one_by_one(self):
        with Running() as front, front.open() as a:
            for byte in put(7, 41) + END + get(7) + END:
                a.send(bytes([byte]))
            self.told(a, DONE + ENDED + value(41) + ENDED)

    def test_rounds_sent_ahead(self):
        with Running() as front, front.open() as a:
            text, wanted = b"", b""
            for n in range(200):
                text += put(n % 7, n) + END + get(n % 7) + END
                wanted += DONE + ENDED + value(n) + ENDED
            self.ask(a, text, wanted)

    def test_an_empty_round(self):
        with Running() as front, front.open() as a:
            self.ask(a, END + END, ENDED + ENDED)

    def test_input_that_ends_behind_a_round_is_answered(self):
        with Running() as front, front.open() as a:
            a.sendall(put(7, 41) + END + get(7) + END)
            a.shutdown(socket.SHUT_WR)
            self.told(a, DONE + ENDED + value(41) + ENDED)
            self.assertTrue(is_ended(a))

    def test_a_class_is_invoked_in_its_own_round(self):
        with Running() as front, front.open() as a:
            self.ask(a, put(7, 41) + END, DONE + ENDED)
            a.sendall(define(plus()) + invoke(0, 7) + END)
            self.assertEqual(take_frame(a)[:5], b"\1\0\0\0\0")
            self.told(a, result(42) + ENDED)

    def test_too_many_jobs(self):
        with Running() as front, front.open() as a:
            self.define(a, plus(), 0)
            text = b"".join(put(n, n) for n in range(4_000))
            wanted = 4_000 * DONE
            text += (
                invoke_all(0, range(-97, 0))
                + b"".join(put(n, n) for n in range(4_000, 4_903))
                + invoke_all(7, [1])
                + END
            )
            wanted += denied(5) + 96 * DONE + 807 * denied(5) + denied(1) + ENDED
            self.ask(a, text, wanted)
            self.ask(a, get(4_095) + get(4_096) + END, value(4_095) + value(None) + ENDED)

    def test_requests_beyond_their_limit_end_the_connection(self):
        with Running("--requests", "10") as front, front.open() as a, front.open() as b:
            self.ask(a, 10 * get(1) + END, 10 * value(None) + ENDED)
            self.send_all(b, put(1, 1) + 10 * get(1) + END)
            self.ask(a, get(1) + END, value(None) + ENDED)

    def test_who_stands_still_is_closed(self):
        with Running("--idle", "1") as front, front.open() as a:
            self.assertTrue(is_ended(a))

    def test_tcp(self):
        with Running(tcp=True) as front, front.open() as a, front.open() as b:
            self.assertEqual(front.place[0], "127.0.0.1")
            self.ask(a, put(7, 41) + END, DONE + ENDED)
            self.ask(b, get(7) + END, value(41) + ENDED)


class InvokeAll(FrontTest):
    """With --steps 1 the front sends each key to the server in its own batch."""

    def test_keys_that_stand_twice_run_once(self):
        for options in ((), ("--steps", "1")):
            with self.subTest(options=options), Running(*options) as front, front.open() as a:
                self.define(a, plus(), 0)
                self.ask(a, b"".join(put(key, 10 * key) for key in (7, 8, 9)) + END, 3 * DONE + ENDED)
                told = [(9, 91), (7, 71), (8, 81)]
                self.ask(a, invoke_all(0, [9, 7, 9, 8, 7, 9]) + END, results(told) + ENDED)
                self.ask(a, get(7) + get(8) + get(9) + END, value(71) + value(81) + value(91) + ENDED)

    def test_no_keys(self):
        with Running() as front, front.open() as a:
            self.define(a, plus(), 0)
            self.ask(a, invoke_all(0, []) + invoke_all(1, []) + END, results([]) + denied(1) + ENDED)

    def test_replies_are_put_together(self):
        for options in ((), ("--steps", "1"), ("--steps", "2000")):
            with self.subTest(options=options), Running(*options) as front, front.open() as a:
                self.define(a, plus(), 0)
                keys = list(range(300, 0, -1))
                self.ask(a, b"".join(put(key, key) for key in keys) + END, 300 * DONE + ENDED)
                text = get(1) + invoke_all(0, keys) + get(-1) + invoke_all(0, [-1, -2]) + END
                thrown = frame(struct.pack(">BHqBBqBB", 7, 2, -1, 1, 3, -2, 1, 3))
                wanted = results([(key, key + 1) for key in keys]) + value(None) + thrown + ENDED
                a.sendall(text)
                self.assertIn(take(a, len(value(1))), (value(1), value(2)))
                self.told(a, wanted)

    @unittest.skipUnless(PROGRAM, "the stand-in runs no classes")
    def test_results_that_are_null_are_left_out(self):
        request = bytes.fromhex(
            "00000028 07 00000000 0004 0000000000000001 0000000000000002 0000000000000002 0000000000000003 00"
        )
        reply = bytes.fromhex("0000001F 07 0002 0000000000000001 00 01 0000000000000000 0000000000000002 01 01")
        for options in ((), ("--steps", "1")):
            with self.subTest(options=options), Running(*options) as front, front.open() as a:
                self.define(a, ratio(), 0)
                self.ask(a, put(1, -5) + put(2, 0) + put(3, 1) + END, 3 * DONE + ENDED)
                self.ask(a, request + END, reply + ENDED)
                self.ask(a, invoke_all(0, [3]) + END, results([]) + ENDED)


class ManyConnections(FrontTest):
    def test_share_a_cache(self):
        with Running() as front, front.open() as a, front.open() as b:
            self.ask(a, put(7, 41) + END, DONE + ENDED)
            self.ask(b, get(7) + END, value(41) + ENDED)

    def test_class_numbers_are_of_the_connection(self):
        with Running() as front, front.open() as a, front.open() as b:
            self.ask(b, invoke(0, 7) + END, denied(1) + ENDED)
            self.define(a, another(1), 0)
            self.define(a, plus(), 1)
            self.ask(a, put(7, 41) + END, DONE + ENDED)
            self.ask(a, invoke(1, 7) + END, result(42) + ENDED)
            self.ask(b, invoke(0, 7) + END, denied(1) + ENDED)
            self.define(b, plus(), 0)
            self.ask(b, invoke(0, 7) + END, result(43) + ENDED)
            self.ask(b, invoke(1, 7) + invoke(0xFFFFFFFF, 7) + invoke_all(1, [7]) + END, 3 * denied(1) + ENDED)

    def test_rounds_before_what_is_no_request_are_answered(self):
        with Running() as front, front.open() as a:
            a.sendall(put(1, 1) + END + 5_000 * (invoke(0, 7) + END) + frame(b"\xff") + END)
            self.told(a, DONE + ENDED + 5_000 * (denied(1) + ENDED))
            self.assertTrue(is_ended(a))

    def test_a_round_that_breaks_off_is_not_run(self):
        with Running() as front, front.open() as b:
            for text in (put(1, 1), put(1, 1) + put(2, 2)[:9], b"\0\0", define(plus())[:100]):
                with front.open() as a:
                    self.send_all(a, text)
            self.ask(b, get(1) + get(2) + END, 2 * value(None) + ENDED)

    def test_what_is_no_request_ends_its_connection_alone(self):
        self.assertEqual(len(MALFORMED), 18)
        with Running() as front, front.open() as b:
            for text in MALFORMED:
                with self.subTest(text=text[:20]), front.open() as a:
                    self.ask(a, put(4, 4) + END, DONE + ENDED)
                    try:
                        a.sendall(put(3, 3) + text + END)
                    except ConnectionError:
                        pass
                    self.assertTrue(is_ended(a))
            self.ask(b, get(3) + get(4) + END, value(None) + value(4) + ENDED)

    def test_changed_streams(self):
        with Running() as front, front.open() as b:
            rng = random.Random(1)
            for _ in range(300):
                good = [
                    put(rng.randrange(9), 1),
                    get(1),
                    invoke(rng.randrange(3), 1),
                    invoke_all(0, [1, 1]),
                    define(plus()),
                    END,
                ]
                text = bytearray(b"".join(rng.choice(good) for _ in range(6)))
                for _ in range(rng.randrange(1, 4)):
                    text[rng.randrange(len(text))] ^= rng.randrange(1, 256)
                with front.open() as a:
                    self.send_all(a, text + END)
            self.ask(b, put(77, 5) + END, DONE + ENDED)
            self.ask(b, get(77) + END, value(5) + ENDED)

    def test_400_connections(self):
        wrong = []

        def work(front, me):
            try:
                with front.open() as line:
                    for n in range(5):
                        self.ask(line, put(me, 1000 * me + n) + END, DONE + ENDED)
                        self.ask(line, get(me) + get(-1 - me) + END, value(1000 * me + n) + value(None) + ENDED)
            except BaseException as e:
                wrong.append((me, repr(e)))

        with Running() as front:
            team = [threading.Thread(target=work, args=(front, n)) for n in range(400)]
            for it in team:
                it.start()
            for it in team:
                it.join(2 * PATIENCE)
            self.assertEqual(wrong, [])

    def test_1025_connections(self):
        soft, hard = resource.getrlimit(resource.RLIMIT_NOFILE)
        if hard != resource.RLIM_INFINITY and hard < 2_048:
            self.skipTest("this process may not open 2,048 files")
        resource.setrlimit(resource.RLIMIT_NOFILE, (max(soft, 2_048), hard))
        lines = []
        try:
            with Running() as front:
                for n in range(1_024):
                    lines.append(front.open())
                    self.ask(lines[-1], put(n, n) + END, DONE + ENDED)
                with front.open() as more:
                    self.assertTrue(is_ended(more))
                self.ask(lines[5], get(1_023) + END, value(1_023) + ENDED)
                lines.pop().close()
                self.assertTrue(self.gets_in(front))
        finally:
            for line in lines:
                line.close()
            resource.setrlimit(resource.RLIMIT_NOFILE, (soft, hard))

    def gets_in(self, front):
        """Returns whether a new connection is accepted within PATIENCE seconds."""
        end = time.monotonic() + PATIENCE
        while time.monotonic() < end:
            with front.open() as line:
                try:
                    self.ask(line, get(1) + END, value(1) + ENDED)
                    return True
                except (EOFError, ConnectionError):
                    time.sleep(0.05)
        return False

    def test_few_files_make_few_connections(self):
        few = {"preexec_fn": lambda: resource.setrlimit(resource.RLIMIT_NOFILE, (40, 40))}
        with Running(**few) as front:
            self.assertIn("at most 24 connections", "\n".join(front.words))
            lines = [front.open() for _ in range(24)]
            for line in lines:
                self.ask(line, get(1) + END, value(None) + ENDED)
            with front.open() as more:
                self.assertTrue(is_ended(more))
            for line in lines:
                line.close()

    def test_a_slow_reader_holds_up_itself_alone(self):
        with Running() as front, front.open() as b, front.open() as a:
            a.settimeout(0.5)
            text, sent = b"".join(get(n) for n in range(4_000)) + END, 0
            with self.assertRaises(socket.timeout):
                for sent in range(400):
                    a.sendall(text)
            self.assertLess(sent, 100, "nothing held it up")
            for n in range(200):
                self.ask(b, put(1, n) + END, DONE + ENDED)

    def test_a_slow_reader_gets_all_in_the_end(self):
        with Running() as front, front.open() as a:
            text, wanted = b"".join(get(n) for n in range(4_000)) + END + 500 * END, 4_000 * value(None) + 501 * ENDED
            thread = threading.Thread(target=a.sendall, args=(20 * text,))
            thread.start()
            time.sleep(0.5)
            self.told(a, 20 * wanted)
            thread.join(PATIENCE)

    def test_who_takes_no_replies_is_closed(self):
        with Running("--idle", "1") as front, front.open() as a:
            text = b"".join(get(n) for n in range(4_000)) + END
            with self.assertRaises(ConnectionError):
                for _ in range(400):
                    a.sendall(text)

    def test_large_rounds_beside_small_ones(self):
        going, rounds = threading.Event(), []
        text, wanted = b"".join(put(n, n) for n in range(4_096)) + END, 4_096 * DONE + ENDED

        def flood(line):
            while not going.is_set():
                line.sendall(text)
                rounds.append(take(line, len(wanted)) == wanted)

        with Running() as front, front.open() as b, front.open() as a:
            thread = threading.Thread(target=flood, args=(a,))
            thread.start()
            for n in range(100):
                self.ask(b, put(-1, n) + get(-2) + END, DONE + value(None) + ENDED)
            going.set()
            thread.join(PATIENCE)
            self.assertGreater(len(rounds), 0)
            self.assertTrue(all(rounds))

    def test_rounds_sent_ahead_hold_up_nobody(self):
        count, taken, wrong = 50_000, [], []

        def take_all(line):
            try:
                for n in range(0, count, 1_000):
                    wrong.append(take(line, 1_000 * len(DONE + ENDED)) != 1_000 * (DONE + ENDED))
                    taken.append(n)
            except (OSError, EOFError) as e:
                wrong.append(repr(e))

        def send_all(line):
            for _ in range(0, count, 1_000):
                line.sendall(1_000 * (put(1, 1) + END))  # the socket's timeout applies to the whole call of sendall

        with Running() as front, front.open() as b, front.open() as a:
            taker = threading.Thread(target=take_all, args=(a,))
            sender = threading.Thread(target=send_all, args=(a,))
            taker.start()
            sender.start()
            for n in range(20):
                self.ask(b, put(-1, n) + get(-2) + END, DONE + value(None) + ENDED)
            self.assertLess(len(taken), count // 1_000, "the rounds were all answered before others")
            for it in (sender, taker):
                it.join(2 * PATIENCE)
            self.assertEqual(set(wrong), {False})
            self.assertEqual(len(taken), count // 1_000)


class Waits(FrontTest):
    """What happens while a connection's round is at a slow server."""

    def slow(self, seconds):
        return Running(server=STAND_IN + ["--slow", str(seconds)])

    def test_who_leaves_while_its_round_runs(self):
        """The first round is at the server when its peer leaves, and the others aren't sent there any more."""
        with self.slow(2) as front, front.open() as b:
            for at in range(3):
                with front.open() as a:
                    a.sendall(put(at, at) + END + put(at, 77) + put(9, 9))
                time.sleep(0.1)
            self.ask(b, get(9) + END, value(None) + ENDED)
            self.ask(b, get(0) + get(1) + get(2) + END, value(0) + 2 * value(None) + ENDED)
            self.assertLess(front.processor_seconds(), 0.5)

    def test_who_brings_a_class_and_leaves(self):
        with self.slow(0.5) as front, front.open() as b:
            with front.open() as a:
                a.sendall(define(plus()) + END)
                time.sleep(0.1)
            self.define(b, plus(), 0)

    def test_more_rounds_wait_quietly(self):
        with self.slow(0.5) as front, front.open() as a, front.open() as b:
            a.sendall(put(1, 1) + END + put(1, 2) + END)
            a.sendall(put(1, 3) + END + get(1))
            b.sendall(get(2) + END)
            b.shutdown(socket.SHUT_WR)
            self.told(b, value(None) + ENDED)
            self.told(a, 3 * (DONE + ENDED))
            self.ask(a, END, value(3) + ENDED)
            self.assertLess(front.processor_seconds(), 0.5)

    def test_a_front_that_nobody_asks_sleeps(self):
        with Running() as front, front.open() as a:
            self.ask(a, put(1, 1) + END, DONE + ENDED)
            before = front.processor_seconds()
            time.sleep(1)
            self.assertLess(front.processor_seconds() - before, 0.05)


def has_several():
    """Returns whether there are several processors, and this process may set its affinity."""
    mine = os.sched_getaffinity(0)
    try:
        os.sched_setaffinity(0, mine)
    except OSError:
        return False
    return len(mine) > 1


@unittest.skipUnless(has_several(), "processes can't be moved between processors")
class Processors(FrontTest):
    """The processors that the front's thread and the server's may run on."""

    def places(self, front):
        return os.sched_getaffinity(front.process.pid), os.sched_getaffinity(front.server())

    def call(self, line, times):
        for _ in range(times):
            self.ask(line, get(1) + END, value(None) + ENDED)

    def call_until(self, line, front, meant):
        """Makes calls until `meant` holds of these processors, or PATIENCE seconds have passed. Returns whether it holds."""
        until = time.monotonic() + PATIENCE
        while time.monotonic() < until:
            self.call(line, 100)
            if meant(self.places(front)):
                return True
        return False

    def is_one(self, places):
        return places[0] == places[1] and len(places[0]) == 1

    def test_who_calls_alone_has_both_on_one(self):
        with Running() as front, front.open() as a:
            before = self.places(front)
            self.assertTrue(self.call_until(a, front, self.is_one))
            with front.open() as b:
                self.call(b, 1)
                self.assertEqual(self.places(front), before)
                self.assertTrue(self.call_until(b, front, self.is_one))

    def test_long_rounds_have_all(self):
        with Running() as front, front.open() as a:
            before = self.places(front)
            self.assertTrue(self.call_until(a, front, self.is_one))
            self.ask(a, 100 * get(1) + END, 100 * value(None) + ENDED)
            self.assertEqual(self.places(front), before)

    def test_two_at_once_have_all(self):
        with Running() as front, front.open() as a, front.open() as b:
            before = self.places(front)
            self.assertTrue(self.call_until(a, front, self.is_one))
            for _ in range(100):
                a.sendall(get(1) + END)
                b.sendall(get(1) + END)
                self.told(a, value(None) + ENDED)
                self.told(b, value(None) + ENDED)
            self.assertEqual(self.places(front), before)


if __name__ == "__main__":
    unittest.main()
