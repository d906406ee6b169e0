#!/usr/bin/env python3
"""front_times_test: servers that hang, connections that take too long or too much, and the end of a front. running.py has the requirements."""
import os
import signal
import socket
import subprocess
import tempfile
import threading
import time
import unittest

from class_files import plus
from frames import DONE, END, ENDED, get, put, value
from running import FRONT, PATIENCE, STAND_IN, FrontTest, Running, is_ended


def slow(seconds, *options, **started):
    return Running("--http", "0", *options, server=STAND_IN + ["--slow", str(seconds)], **started)


def wait_for(front, name="jentry_waiting_rounds"):
    """Waits until a metric isn't 0."""
    deadline = time.monotonic() + PATIENCE
    while front.metrics()[name] < 1 and time.monotonic() < deadline:
        time.sleep(0.01)


class Stalls(FrontTest):
    def test_a_server_that_hangs_is_not_healthy(self):
        with Running("--http", "0", "--stall", "1") as front, front.open() as a:
            self.ask(a, put(1, 1) + END, DONE + ENDED)
            self.assertEqual(front.http("/healthz")[0], 200)
            os.kill(front.server(), signal.SIGSTOP)
            try:
                a.sendall(get(1) + END)
                front.logged("WARN .*the server hasn't answered a batch for 1 s")
                status, _, text = front.http("/healthz")
                self.assertEqual(status, 503)
                self.assertRegex(text, r"^the server hasn't answered a batch for [1-9]\d* seconds\n$")
                metrics = front.metrics()
                self.assertGreaterEqual(metrics["jentry_batch_age_seconds"], 1)
                self.assertEqual(metrics["jentry_server_up"], 1)
            finally:
                os.kill(front.server(), signal.SIGCONT)
            self.told(a, value(1) + ENDED)
            front.logged("WARN .*the server has answered a batch after")
            self.assertEqual(front.http("/healthz")[0], 200)
            self.assertEqual(front.metrics()["jentry_batch_age_seconds"], 0)


class Notified(FrontTest):
    """What a front tells systemd: a datagram socket takes systemd's place."""

    def setUp(self):
        folder = tempfile.TemporaryDirectory()
        self.addCleanup(folder.cleanup)
        self.path = os.path.join(folder.name, "notify")
        self.socket = socket.socket(socket.AF_UNIX, socket.SOCK_DGRAM)
        self.addCleanup(self.socket.close)
        self.socket.bind(self.path)
        self.socket.settimeout(PATIENCE)

    def messages(self, seconds):
        """Returns the messages that come within this time."""
        found, end = [], time.monotonic() + seconds
        while (left := end - time.monotonic()) > 0:
            self.socket.settimeout(left)
            try:
                found.append(self.socket.recv(4_096).decode())
            except socket.timeout:
                pass
        return found

    def hears(self, wanted):
        """Waits for a message."""
        self.socket.settimeout(PATIENCE)
        while self.socket.recv(4_096).decode() != wanted:
            pass

    def test_systemd_hears_of_the_start_the_end_and_that_the_server_answers(self):
        asked = {**os.environ, "NOTIFY_SOCKET": self.path, "WATCHDOG_USEC": "600000"}
        with Running("--stall", "1", env=asked) as front, front.open() as a:
            for wanted in ("READY=1", *(3 * ["WATCHDOG=1"])):
                self.hears(wanted)
            os.kill(front.server(), signal.SIGSTOP)
            a.sendall(get(1) + END)
            front.logged("WARN .*the server hasn't answered a batch for 1 s")
            self.messages(0.5)
            self.assertEqual(self.messages(1), [], "the watchdog of a server that hangs")
            os.kill(front.server(), signal.SIGCONT)
            self.told(a, value(None) + ENDED)
            self.hears("WATCHDOG=1")
            front.process.terminate()
            self.hears("STOPPING=1")


class Drains(FrontTest):
    """SIGTERM lets a front answer what was sent."""

    def test_rounds_that_were_sent_are_answered(self):
        for number in (signal.SIGTERM, signal.SIGINT):
            with self.subTest(number=number), slow(1.5) as front, front.open() as a, front.open() as b:
                idle = front.open()
                a.sendall(put(1, 1) + END + get(1) + END)
                time.sleep(0.1)
                b.sendall(put(2, 2) + END)
                front.process.send_signal(number)
                self.assertTrue(is_ended(idle))
                idle.close()
                self.assertEqual(front.http("/healthz")[0], 503)
                self.assertFalse(os.path.exists(front.place))
                self.told(a, DONE + ENDED + value(1) + ENDED)
                self.told(b, DONE + ENDED)
                self.assertEqual(front.process.wait(PATIENCE), -number)
                self.assertIn("with 0 open connections", front.logged("ended by ")[0])

    def test_a_signal_of_the_terminal_ends_the_front_alone(self):
        """All processes of a group get it; the server has to answer first."""
        for number in (signal.SIGINT, signal.SIGTERM):
            with self.subTest(number=number), slow(1, start_new_session=True) as front, front.open() as a:
                a.sendall(put(1, 1) + END + get(1) + END)
                wait_for(front)
                os.killpg(front.process.pid, number)
                self.told(a, DONE + ENDED + value(1) + ENDED)
                self.assertEqual(front.process.wait(PATIENCE), -number)
                self.assertIn("with 0 open connections", front.logged("ended by ")[0])

    def test_a_round_that_has_begun_may_come_to_its_end(self):
        with Running("--http", "0") as front, front.open() as a:
            a.sendall(put(1, 1) + get(2)[:5])
            wait_for(front, "jentry_round_bytes")
            front.process.terminate()
            time.sleep(0.5)
            self.ask(a, get(2)[5:] + END, DONE + value(None) + ENDED)
            self.assertTrue(is_ended(a))
            self.assertEqual(front.process.wait(PATIENCE), -signal.SIGTERM)

    def test_it_ends_within_its_time(self):
        with slow(30, "--drain", "1") as front, front.open() as a, front.open() as b:
            b.sendall(put(2, 2))
            wait_for(front, "jentry_round_bytes")
            a.sendall(put(1, 1) + END)
            wait_for(front)
            begun = time.monotonic()
            front.process.terminate()
            self.assertEqual(front.process.wait(PATIENCE), -signal.SIGTERM)
            self.assertTrue(0.8 < time.monotonic() - begun < 5)
            self.assertIn("with 2 open connections", front.logged("ended by ")[0])

    def test_a_second_signal_ends_it_at_once(self):
        with slow(30, "--drain", "60") as front, front.open() as a:
            a.sendall(put(1, 1) + END)
            wait_for(front)
            front.process.terminate()
            front.logged("answering what 1 connections have sent")
            front.process.terminate()
            self.assertEqual(front.process.wait(PATIENCE), -signal.SIGTERM)

    def test_connections_that_come_later_stay_with_an_inherited_socket(self):
        """The next front on the socket that systemd passes accepts them."""
        with tempfile.TemporaryDirectory() as folder, socket.socket(socket.AF_UNIX) as listener:
            listener.bind(os.path.join(folder, "socket"))
            listener.listen()
            first = Inherited(listener)
            self.addCleanup(first.kill)
            with first.open() as a:
                self.ask(a, put(2, 2) + END, DONE + ENDED)
                a.sendall(put(1, 1))
                wait_for(first, "jentry_round_bytes")
                first.process.terminate()
                first.logged("answering what 1 connections have sent")
                with first.open() as b:
                    b.sendall(get(1) + END)
                    self.ask(a, END, DONE + ENDED)
                    first.process.wait(PATIENCE)
                    second = Inherited(listener)
                    self.addCleanup(second.kill)
                    self.told(b, value(None) + ENDED)

    def test_connections_behind_the_servers_end_stay_with_an_inherited_socket(self):
        """The server closes its replies, and takes two seconds more to end."""
        server = ["sh", "-c", f"{' '.join(STAND_IN)} --die 2; exec >&-; sleep 2"]
        with tempfile.TemporaryDirectory() as folder, socket.socket(socket.AF_UNIX) as listener:
            listener.bind(os.path.join(folder, "socket"))
            listener.listen()
            first = Inherited(listener, server)
            self.addCleanup(first.kill)
            with first.open() as a:
                self.ask(a, put(1, 1) + END, DONE + ENDED)
                a.sendall(put(1, 1) + END)
                self.assertTrue(is_ended(a))
            with first.open() as b:
                b.sendall(get(1) + END)
                self.assertEqual(first.process.wait(PATIENCE), 3)
                second = Inherited(listener)
                self.addCleanup(second.kill)
                self.told(b, value(None) + ENDED)


class Inherited(Running):
    """A front on a listening socket that it inherits."""

    def __init__(self, listener, server=None):
        self.place, self.words = listener.getsockname(), []
        words = [FRONT, "--stdin", "--http", "0", *(server or STAND_IN)]
        self.process = subprocess.Popen(words, stdin=listener, stderr=subprocess.PIPE, text=True)
        self._listener = threading.Thread(target=self._listen, daemon=True)
        self._listener.start()
        self.logged(" http on ")

    def kill(self):
        self.process.kill()
        self.end()


class Limits(FrontTest):
    def test_a_byte_at_a_time_holds_no_connection(self):
        with Running("--http", "0", "--round", "1", "--idle", "1") as front, front.open() as a:
            begun = time.monotonic()
            try:
                for byte in 100 * put(1, 1):
                    a.send(bytes([byte]))
                    time.sleep(0.1)
            except ConnectionError:
                pass
            self.assertTrue(0.8 < time.monotonic() - begun < 4)
            self.assertEqual(front.metrics()['jentry_connections_closed_total{reason="slow"}'], 1)
            self.assertIn("--round", front.logged("WARN .*closed")[0])

    def test_whole_rounds_may_take_any_number_of_connections_time(self):
        with Running("--round", "1") as front, front.open() as a:
            for n in range(15):
                self.ask(a, put(1, n) + END, DONE + ENDED)
                time.sleep(0.1)

    def test_who_takes_replies_too_slowly_is_closed(self):
        with Running("--round", "1") as front, front.open() as a:
            text = b"".join(get(n) for n in range(4_000)) + END
            with self.assertRaises(ConnectionError):
                for _ in range(400):
                    a.sendall(text)

    def test_a_round_that_waits_for_the_server_is_not_late(self):
        with slow(2.5, "--round", "1") as front, front.open() as a:
            self.ask(a, put(1, 1) + END, DONE + ENDED)

    def test_tcp_connections_are_kept_alive(self):
        with Running(tcp=True) as front, front.open() as a:
            self.ask(a, put(1, 1) + END, DONE + ENDED)
            local, other = a.getpeername()[1], a.getsockname()[1]
            with open("/proc/net/tcp", encoding="utf-8") as table:
                rows = [line.split() for line in table.readlines()[1:]]
            ends = f"0100007F:{local:04X}", f"0100007F:{other:04X}"
            (timer,) = [row[5] for row in rows if (row[1], row[2]) == ends]
            self.assertEqual(timer.split(":")[0], "02", "no keepalive timer")

    def test_open_rounds_have_a_total(self):
        """The connections with the largest rounds are closed, and the others' rounds are answered."""
        with Running("--http", "0", "--round-bytes", "4000000") as front, front.open() as small:
            small.sendall(put(1, 1))
            lines = [front.open() for _ in range(30)]
            for line in lines:
                self.addCleanup(line.close)
                try:
                    line.sendall(b"".join(get(n) for n in range(16_000)))
                except ConnectionError:
                    pass
            end = time.monotonic() + PATIENCE
            while front.metrics()['jentry_connections_closed_total{reason="large"}'] < 10 and time.monotonic() < end:
                time.sleep(0.1)
            metrics = front.metrics()
            self.assertGreaterEqual(metrics['jentry_connections_closed_total{reason="large"}'], 10)
            self.assertLessEqual(metrics["jentry_round_bytes"], 4_000_000)
            self.assertGreater(metrics["jentry_round_bytes"], 1_000_000)
            self.ask(small, END, DONE + ENDED)
            self.define(small, plus(), 0)
            for line in lines:
                line.close()
            self.ask(small, get(1) + END, value(1) + ENDED)
            self.assertEqual(front.metrics()["jentry_round_bytes"], 0)


if __name__ == "__main__":
    unittest.main()
