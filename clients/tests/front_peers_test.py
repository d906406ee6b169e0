#!/usr/bin/env python3
"""front_peers_test: what one peer can't do to others, by definitions, by heavy rounds and by leaving. running.py has the requirements."""
import os
import socket
import statistics
import time
import unittest

from class_files import another
from frames import DONE, END, ENDED, define, denied, frame, get, invoke, put, value
from running import PATIENCE, STAND_IN, FrontTest, Running, has_more, is_ended, take, take_frame

PROCESSORS = os.path.join(os.path.dirname(os.path.abspath(__file__)), "../processors")
BUILT_IN = sorted(it for it in os.listdir(PROCESSORS) if it.endswith(".class"))
REFUSED = frame(b"\2\3\0\0\0\0")
ACCEPTED = 22
# The classes of the tests have 100 instructions times their number; a run of HEAVY takes 2.4 ms.
PACE = 1e-8
HEAVY, LIGHT = 2_400, 10


def paced(*options, **started):
    return Running("--http", "0", *options, server=STAND_IN + ["--pace", str(PACE)], **started)


def wait_for_connections(front, count):
    """Waits until the front has this number of connections."""
    deadline = time.monotonic() + PATIENCE
    while front.metrics()["jentry_connections"] != count and time.monotonic() < deadline:
        time.sleep(0.02)


def from_address(front, address):
    """Opens a TCP connection to a front from this address of the loopback."""
    line = socket.create_connection(front.place, PATIENCE, (address, 0))
    line.settimeout(PATIENCE)
    return line


def built_in(name):
    with open(os.path.join(PROCESSORS, name), "rb") as file:
        return file.read()


class HangUps(FrontTest):
    """A round of a connection that its peer has closed is dropped, as far as it isn't at the server."""

    def test_what_waits_of_who_hangs_up_is_dropped(self):
        with paced() as front, front.open() as b:
            lines = [front.open() for _ in range(64)]
            for line in lines:
                self.define(line, another(HEAVY), 0)
            for line in lines:
                line.sendall(b"".join(invoke(0, key) for key in range(4_096)) + END)
            time.sleep(0.3)
            before = front.metrics()["jentry_runs_total"]
            for line in lines:
                line.close()
            wait_for_connections(front, 1)
            metrics = front.metrics()
            self.assertEqual((metrics["jentry_waiting_rounds"], metrics["jentry_connections"]), (0, 1))
            runs = front.metrics()["jentry_runs_total"]
            self.assertLess(runs - before, 2_000)
            self.ask(b, put(1, 1) + END, DONE + ENDED)
            self.assertEqual(front.metrics()["jentry_runs_total"], runs)

    def test_newcomers_find_room_when_others_have_left(self):
        with paced("--connections", "8") as front:
            for _ in range(3):
                lines = [front.open() for _ in range(8)]
                for line in lines:
                    self.define(line, another(HEAVY), 0)
                    line.sendall(b"".join(invoke(0, key) for key in range(4_096)) + END)
                for line in lines:
                    line.close()
                wait_for_connections(front, 0)
                with front.open() as b:
                    self.ask(b, get(1) + END, value(None) + ENDED)
                wait_for_connections(front, 0)

    def test_who_ends_its_input_over_tcp_has_five_seconds(self):
        with paced(tcp=True) as front, front.open() as a, front.open() as b:
            begun = time.monotonic()
            for line, runs in ((a, 4_096), (b, 10)):
                self.define(line, another(HEAVY), 0)
                line.sendall(b"".join(invoke(0, key) for key in range(runs)) + END)
                line.shutdown(socket.SHUT_WR)
            take(b, 10 * 7 + 5)
            self.assertTrue(is_ended(a))
            self.assertTrue(4 < time.monotonic() - begun < 8)


class Steps(FrontTest):
    """The instructions of rounds are limited by connection and by peer."""

    def test_a_round_has_as_many_instructions_as_it_may(self):
        with paced("--round-steps", "1000000") as front, front.open() as a:
            self.define(a, another(HEAVY), 0)
            a.sendall(6 * invoke(0, 1) + get(1) + END)
            told = [take_frame(a) for _ in range(8)]
            self.assertEqual([it[0] for it in told[:4]], 4 * [6])
            self.assertEqual(told[4:], [b"\x08\5", b"\x08\5", b"\4\0", b"\x09"])

    def test_a_peer_has_as_many_waiting_instructions_as_it_may(self):
        with paced("--peer-steps", "50000000", tcp=True) as front, front.open() as b:
            lines = [from_address(front, "127.0.0.2") for _ in range(3)]
            for line in lines:
                self.addCleanup(line.close)
                self.define(line, another(HEAVY), 0)
            self.define(b, another(HEAVY), 0)
            for line in lines:
                line.sendall(b"".join(invoke(0, key) for key in range(200)) + END)
                time.sleep(0.05)
            self.ask(lines[2], b"", b"")
            told = [take_frame(lines[2])[0] for _ in range(200)]
            # The first two rounds take some 48,000,000 of the 50,000,000; what has run by then makes room.
            self.assertEqual(told.count(6) + told.count(8), 200)
            self.assertTrue(2 <= told.count(6) < 100, told.count(6))
            b.sendall(20 * invoke(0, 1) + END)
            self.assertEqual([take_frame(b)[0] for _ in range(20)], 20 * [6])


class Classes(FrontTest):
    """Classes are limited by peer, and the clients' built-in processors are always there."""

    def test_the_built_in_processors_are_defined_at_the_start(self):
        with Running("--http", "0", server=STAND_IN + ["--classes", "7"]) as front, front.open() as a:
            self.assertEqual((front.metrics()["jentry_classes"], len(BUILT_IN)), (7, 7))
            self.ask(a, define(another(1)) + END, denied(4) + ENDED)
            for number, name in enumerate(BUILT_IN):
                self.define(a, built_in(name), number)

    def test_65536_definitions_leave_room_for_a_fresh_client(self):
        with Running("--http", "0") as front:
            for n in range(64):
                with front.open() as stranger:
                    for begin in range(0, 1_024, 64):
                        stranger.sendall(b"".join(define(another(n * 99 + m)) for m in range(begin, begin + 64)) + END)
                        while take_frame(stranger) != ENDED[4:]:
                            pass
            metrics = front.metrics()
            self.assertEqual(metrics['jentry_requests_total{kind="define"}'], 65_536)
            self.assertLessEqual(metrics["jentry_classes"], 7 + 1_024)
            with front.open() as fresh:
                self.define(fresh, built_in("PutIfAbsent.class"), 0)
                fresh.sendall(frame(b"\6" + bytes(4) + bytes(8) + b"\1\1" + bytes(8)) + END)
                self.assertEqual(take_frame(fresh)[0], 6)

    def test_a_peer_that_has_its_classes_leaves_room_for_others(self):
        with Running("--peer-classes", "5", "--classes", "5", tcp=True) as front:
            for n in range(3):
                with from_address(front, "127.0.0.2") as line:
                    line.sendall(b"".join(define(another(3 * n + m)) for m in range(3)) + END)
                    told = [take_frame(line)[0] for _ in range(4)]
                    self.assertEqual(told[:3], ([1, 1, 1], [1, 1, 8], [8, 8, 8])[n])
            with from_address(front, "127.0.0.3") as line:
                self.define(line, another(99), 0)

    def refused(self):
        """Sends more classes that are refused than a burst has. Returns the seconds until the burst, a class of another peer and the
        rest have their verdicts."""
        file, count = b"abcd" + bytes(50_000), 18
        with Running(tcp=True, server=STAND_IN) as front, from_address(front, "127.0.0.2") as a, front.open() as b:
            begun = time.monotonic()
            for _ in range(count):
                a.sendall(define(file) + END)
            self.told(a, 10 * (REFUSED + ENDED))
            burst = time.monotonic() - begun
            self.define(b, another(1), 0)
            other = time.monotonic() - begun
            self.told(a, (count - 10) * (REFUSED + ENDED))
            return burst, other, time.monotonic() - begun

    def test_refused_classes_are_limited_by_their_bytes(self):
        """A burst is answered at once, what comes after it waits, and another peer doesn't wait for it. A busy machine has more tries."""
        for _ in range(5):
            burst, other, rest = self.refused()
            self.assertGreater(rest, 4)
            if burst < 2 and other < 2.5 and rest < 15:
                break
        self.assertLess(burst, 2)
        self.assertLess(other, 2.5)
        self.assertLess(rest, 15)

    def test_accepted_classes_are_not_slowed_down(self):
        """They take 8 s at most, or on a busy machine ten times as long as other rounds."""
        with Running("--classes", "1000", server=STAND_IN) as front, front.open() as a:
            begun = time.monotonic()
            for n in range(900):
                self.define(a, another(n), n)
            defined = time.monotonic()
            for n in range(900):
                self.ask(a, put(n, n) + END, DONE + ENDED)
            self.assertLess(defined - begun, max(8, 10 * (time.monotonic() - defined)))

    def test_a_class_above_max_steps_is_refused(self):
        step_limit = frame(b"\2\x1b\0\0\0\0")
        with paced("--max-steps", "200000") as front, front.open() as a, front.open() as b:
            self.define(a, another(2_000), 0)
            for line in (a, b, a):
                self.ask(line, define(another(2_001)) + END, step_limit + ENDED)
            self.define(a, another(1_999), 1)
            self.assertIn("200100 steps, and --max-steps is 200000", front.logged("denied class")[0])

    def test_only_some_users_may_define(self):
        with Running("--define-uid", str(os.getuid())) as front, front.open() as a:
            self.define(a, another(1), 0)
        with Running("--define-uid", "4711", server=STAND_IN) as front, front.open() as a:
            self.ask(a, define(another(1)) + END, denied(4) + ENDED)
            self.define(a, built_in("Replace.class"), 0)
        with Running("--define-uid", str(os.getuid()), server=STAND_IN, tcp=True) as front, front.open() as a:
            self.ask(a, define(another(1)) + END, denied(4) + ENDED)


class Shares(FrontTest):
    """A light call is at most two batches away, however many heavy rounds wait."""

    def beside(self, count):
        """Returns the median time of a call of 1,000 instructions beside this number of heavy connections of the same peer, the
        batches of the server that it took at most, and the mean time of a batch."""
        with paced() as front, front.open() as b:
            lines = [front.open() for _ in range(count)]
            for line in lines:
                self.addCleanup(line.close)
                self.define(line, another(HEAVY), 0)
            self.define(b, another(LIGHT), 0)
            for line in lines:
                line.sendall(b"".join(invoke(0, key) for key in range(1_000)) + END)
            times, batches, first = [], [], front.metrics()
            for _ in range(9):
                # Asking for the count takes some batches itself, and more on a machine with other work.
                earlier, before = (front.metrics()["jentry_batch_seconds_count"] for _ in range(2))
                begun = time.monotonic()
                b.sendall(invoke(0, 1) + END)
                self.assertEqual(take_frame(b)[0], 6)
                take(b, 5)
                times.append(time.monotonic() - begun)
                after = front.metrics()["jentry_batch_seconds_count"]
                batches.append((after - before) - (before - earlier))
            self.assertEqual([n for n, it in enumerate(lines) if has_more(it)], [], "a heavy round was answered")
            last = front.metrics()
            spent, count = (last[it] - first[it] for it in ("jentry_batch_seconds_sum", "jentry_batch_seconds_count"))
            return statistics.median(times), statistics.median(batches), spent / count

    def test_a_light_call_beside_any_number_of_heavy_connections(self):
        for count in (1, 8, 64, 512):
            with self.subTest(count=count):
                seconds, batches, batch = self.beside(count)
                print(
                    f"beside {count} heavy connections: {seconds * 1000:.1f} ms, {batches:.0f} batches of {batch * 1000:.1f} ms"
                )
                # On a busy machine the batches take longer, and this process waits for a processor before it sends and before it reads.
                self.assertLess(seconds, max(0.2, 12 * batch))
                self.assertLessEqual(batches, 3)

    def test_a_peer_with_many_connections_has_no_more_than_one_with_few(self):
        with paced(tcp=True) as front, front.open() as b:
            lines = [from_address(front, "127.0.0.2") for _ in range(32)]
            for line in (*lines, b):
                self.define(line, another(HEAVY), 0)
            for line in lines:
                self.addCleanup(line.close)
                line.sendall(b"".join(invoke(0, key) for key in range(1_000)) + END)
            # What the others run before this call isn't counted, however long this process waits for a processor.
            b.sendall(b"".join(invoke(0, key) for key in range(50)) + END)
            before = front.metrics()["jentry_runs_total"]
            self.assertEqual([take_frame(b)[0] for _ in range(50)], 50 * [6])
            self.assertLess(front.metrics()["jentry_runs_total"] - before, 300)


if __name__ == "__main__":
    unittest.main()
