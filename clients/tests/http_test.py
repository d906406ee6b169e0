#!/usr/bin/env python3
"""http_test: metrics, health and the events of the page, and HTTP clients that are slow or hostile. running.py has the requirements."""
import json
import multiprocessing
import os
import random
import resource
import select
import signal
import socket
import statistics
import struct
import time
import unittest

from class_files import another, plus
from frames import DONE, END, ENDED, define, denied, frame, get, invoke, invoke_all, put, result, value
from running import PATIENCE, PROGRAM, STAND_IN, FrontTest, Running, is_ended, take, take_frame

MOST = 64
THREW = b"\0\0\0\3\6\1\3"
REMOVE = struct.pack(">IBq", 9, 4, 7)
GOOD = [
    b"GET /metrics HTTP/1.1\r\nHost: a\r\n\r\n",
    b"GET / HTTP/1.1\r\nHost: a\r\nConnection: close\r\n\r\n",
    b"HEAD /healthz HTTP/1.0\r\n\r\n",
    b"GET /events HTTP/1.1\r\nAccept: text/event-stream\r\n\r\n",
    b"POST /metrics HTTP/1.1\r\nContent-Length: 5\r\n\r\nabcde",
]


def increase(before, after):
    """Returns the metrics that rose between two moments, and their increase."""
    return {name: after[name] - before.get(name, 0) for name in after if after[name] != before.get(name, 0)}


def connect(address):
    line = socket.create_connection(address, PATIENCE)
    line.settimeout(PATIENCE)
    return line


def read_all(line):
    """Returns all bytes that a connection sends until it is closed."""
    parts = []
    try:
        while part := line.recv(65_536):
            parts.append(part)
    except ConnectionError:
        pass
    return b"".join(parts)


def drip(address, count, seconds):
    """Sends one byte a second on each of `count` connections. A connection that is closed is opened again."""
    lines, end = {}, time.monotonic() + seconds
    text = b"GET /metrics HTTP/1.1\r\nX: " + b"a" * 4_096
    while time.monotonic() < end:
        begun = time.monotonic()
        for n in range(count):
            try:
                if n not in lines:
                    lines[n] = [socket.create_connection(address, 1), 0]
                lines[n][0].sendall(text[lines[n][1] : lines[n][1] + 1])
                lines[n][1] += 1
            except OSError:
                if n in lines:
                    lines.pop(n)[0].close()
        time.sleep(max(0, 1 - (time.monotonic() - begun)))


def first_event(front):
    """Returns the data of the page's first event."""
    with connect(front.http_address()) as line, line.makefile("rb") as lines:
        line.sendall(b"GET /events HTTP/1.1\r\nHost: a\r\n\r\n")
        return next(json.loads(it[len(b"data: ") :]) for it in lines if it.startswith(b"data: "))


class Metrics(FrontTest):
    def seen(self, front, before, wanted):
        rose = increase(before, front.metrics())
        for name, count in wanted.items():
            self.assertEqual(rose.get(name, 0), count, name)

    def test_counts_are_those_of_the_calls(self):
        with Running("--http", "0") as front, front.open() as a:
            before = front.metrics()
            self.define(a, plus(), 0)
            self.ask(a, put(7, 41) + put(8, 1) + END, 2 * DONE + ENDED)
            self.ask(a, get(7) + get(9) + get(10) + END, value(41) + 2 * value(None) + ENDED)
            self.ask(a, invoke(0, 7) + invoke(0, 9) + invoke(3, 7) + END, result(42) + THREW + denied(1) + ENDED)
            self.ask(a, REMOVE + END, frame(b"\5\1") + ENDED)
            self.ask(a, REMOVE + END, frame(b"\5\0") + ENDED)
            kinds = {"define": 1, "put": 2, "get": 3, "invoke": 3, "remove": 2}
            replies = {"defined": 1, "done": 2, "value": 3, "result": 2, "flag": 2, "denied": 1}
            self.seen(
                front,
                before,
                {
                    **{f'jentry_requests_total{{kind="{kind}"}}': count for kind, count in kinds.items()},
                    **{f'jentry_replies_total{{kind="{kind}"}}': count for kind, count in replies.items()},
                    "jentry_runs_total": 2,
                    "jentry_steps_total": 28,
                    'jentry_exceptions_total{number="3"}': 1,
                    'jentry_denials_total{number="1"}': 1,
                    'jentry_gets_total{result="hit"}': 1,
                    'jentry_gets_total{result="miss"}': 2,
                    'jentry_removes_total{result="removed"}': 1,
                    'jentry_removes_total{result="absent"}': 1,
                    "jentry_rounds_total": 6,
                    "jentry_classes": 1,
                    "jentry_class_bytes": len(plus()),
                    "jentry_round_requests_count": 5,
                    "jentry_round_requests_sum": 10,
                },
            )
            self.assertEqual(front.metrics()["jentry_connections"], 1)

    def test_an_invoke_all_in_parts_is_one_reply(self):
        for options in ((), ("--steps", "1")):
            with self.subTest(options=options), Running("--http", "0", *options) as front, front.open() as a:
                self.define(a, plus(), 0)
                self.ask(a, b"".join(put(key, key) for key in (1, 2, 3)) + END, 3 * DONE + ENDED)
                before = front.metrics()
                a.sendall(invoke_all(0, [1, 2, 3, 4, 5]) + END)
                self.assertEqual(take_frame(a)[:3], b"\7\0\5")
                self.assertEqual(take(a, 5), ENDED)
                self.seen(
                    front,
                    before,
                    {
                        'jentry_replies_total{kind="results"}': 1,
                        'jentry_requests_total{kind="invoke_all"}': 1,
                        "jentry_runs_total": 5,
                        'jentry_exceptions_total{number="3"}': 2,
                        "jentry_rounds_total": 1,
                        "jentry_batch_requests_count": 5 if options else 1,
                    },
                )

    def test_exceptions_that_a_class_throws_are_counted_and_named(self):
        """Also where an invokeAll is sent in parts, whose outcomes of several lengths the front puts together again."""
        thrown, one, two, three = b"\3\x09\0\x20", *(struct.pack(">q", key) for key in (1, 2, 3))
        results = frame(b"\7\0\3" + one + thrown + two + b"\0\1" + three + three + thrown)
        for options in ((), ("--steps", "1")):
            with self.subTest(options=options), Running(
                "--http", "0", *options, server=STAND_IN + ["--throw", "9:32"]
            ) as front, front.open() as a:
                self.define(a, plus(), 0)
                self.ask(a, put(2, 2) + END, DONE + ENDED)
                before = front.metrics()
                self.ask(a, invoke(0, 7) + END, frame(b"\6" + thrown) + ENDED)
                self.ask(a, invoke_all(0, [1, 2, 3]) + END, results + ENDED)
                self.ask(a, get(2) + END, value(3) + ENDED)
                self.seen(
                    front,
                    before,
                    {
                        'jentry_exceptions_total{number="9"}': 3,
                        'jentry_exceptions_total{number="other"}': 0,
                        'jentry_replies_total{kind="result"}': 1,
                        'jentry_replies_total{kind="results"}': 1,
                        "jentry_runs_total": 4,
                    },
                )
                named = {"number": "9", "name": "IllegalStateException", "count": 3}
                self.assertEqual(first_event(front)["exceptions"], [named])

    def test_limits_are_counted(self):
        with Running(
            "--http", "0", "--classes", "1", "--connections", "2"
        ) as front, front.open() as a, front.open() as b:
            before = front.metrics()
            self.define(a, plus(), 0)
            self.ask(a, define(another(1)) + END, denied(4) + ENDED)
            with front.open() as more:
                self.assertTrue(is_ended(more))
            self.send_all(b, b"\0\0\0\0")
            self.seen(
                front,
                before,
                {
                    'jentry_denials_total{number="4"}': 1,
                    "jentry_connections_rejected_total": 1,
                    'jentry_connections_closed_total{reason="invalid"}': 1,
                    'jentry_replies_total{kind="denied"}': 1,
                },
            )
            self.assertIn(" WARN ", front.logged("no request, or too many in a round")[0])

    @unittest.skipUnless(PROGRAM, "the stand-in refuses no class")
    def test_a_refused_class_is_counted_and_logged_in_a_line(self):
        with Running("--http", "0") as front, front.open() as a:
            before = front.metrics()
            self.ask(a, define(b"abcd" + plus()[4:]) + END, frame(b"\2\3\0\0\0\0") + ENDED)
            self.seen(
                front, before, {'jentry_refusals_total{number="3"}': 1, 'jentry_replies_total{kind="refused"}': 1}
            )
            lines = front.logged("refused class")
            self.assertEqual(len(lines), 1, lines)
            self.assertRegex(lines[0], r" WARN .*number=3 name=BadMagic .*sha1=[0-9a-f]{40} ")

    def wait_for_rounds(self, front, count):
        """Waits until this number of rounds waits. Returns the metrics then."""
        end = time.monotonic() + PATIENCE
        while (metrics := front.metrics())["jentry_waiting_rounds"] < count and time.monotonic() < end:
            time.sleep(0.02)
        return metrics

    def test_waiting_requests_are_seen(self):
        with Running("--http", "0", server=STAND_IN + ["--slow", "3"]) as front, front.open() as a, front.open() as b:
            a.sendall(put(1, 1) + END)
            self.wait_for_rounds(front, 1)
            b.sendall(3 * get(1) + END)
            metrics = self.wait_for_rounds(front, 2)
            self.assertEqual((metrics["jentry_waiting_rounds"], metrics["jentry_waiting_requests"]), (2, 3))
            self.told(a, DONE + ENDED)
            self.told(b, 3 * value(1) + ENDED)
            metrics = front.metrics()
            self.assertEqual((metrics["jentry_waiting_rounds"], metrics["jentry_waiting_requests"]), (0, 0))
            self.assertGreaterEqual(metrics["jentry_round_seconds_sum"], 2)

    def test_processes_are_those_of_the_front_and_the_server(self):
        with Running("--http", "0") as front:
            metrics = front.metrics()
            self.assertEqual(metrics["jentry_server_up"], 1)
            self.assertLess(abs(metrics["process_resident_memory_bytes"] - front.memory()), 8 << 20)
            self.assertLess(abs(metrics["jentry_server_start_time_seconds"] - time.time()), PATIENCE)
            self.assertGreater(metrics["jentry_server_resident_memory_bytes"], 100_000)


class Answers(FrontTest):
    def test_nothing_listens_without_the_option(self):
        with Running() as front:
            self.assertFalse([line for line in front.words if "http" in line])
            with self.assertRaises(ValueError):
                front.http_address()

    def test_routes(self):
        with Running("--http", "0") as front:
            self.assertEqual(front.http_address()[0], "127.0.0.1")
            self.assertEqual((front.http("/healthz")[0], front.http("/healthz")[2]), (200, "ok\n"))
            status, headers, text = front.http("/metrics")
            self.assertEqual((status, headers["Content-Type"]), (200, "text/plain; version=0.0.4; charset=utf-8"))
            self.assertIn("# TYPE jentry_requests_total counter", text)
            status, headers, text = front.http("/")
            self.assertEqual((status, headers["Content-Type"]), (200, "text/html; charset=utf-8"))
            self.assertIn("default-src 'none'", headers["Content-Security-Policy"])
            status, headers, text = front.http("/metrics", "HEAD")
            self.assertEqual((status, text), (200, ""))
            self.assertGreater(int(headers["Content-Length"]), 1_000)
            self.assertEqual([front.http(path)[0] for path in ("/x", "/metrics/", "//")], 3 * [404])
            for method in ("POST", "DELETE", "PUT"):
                status, headers, _ = front.http("/metrics", method)
                self.assertEqual((status, headers["Allow"]), (405, "GET, HEAD"))

    def test_requests_on_one_connection(self):
        request = b"GET /healthz HTTP/1.1\r\nHost: a\r\n\r\n"
        with Running("--http", "0") as front:
            with connect(front.http_address()) as line:
                line.sendall(2 * request + request[:10])
                time.sleep(0.2)
                line.sendall(request[10:-2] + b"Connection: close\r\n\r\n")
                text = read_all(line)
            self.assertEqual((text.count(b"HTTP/1.1 200 OK"), text.count(b"\r\n\r\nok\n")), (3, 3))
            with connect(front.http_address()) as line:
                line.sendall(500 * request)
                line.shutdown(socket.SHUT_WR)
                self.assertEqual(read_all(line).count(b"\r\n\r\nok\n"), 500)

    def test_what_is_too_long_or_no_request(self):
        with Running("--http", "0") as front:
            for text, status in (
                (b"GET / HTTP/1.1\r\nX: " + 9_000 * b"a", b"431"),
                (b"\0\0\0\x09\3" + bytes(8), b"400"),
                (GOOD[4], b"405"),
                (b"GET / HTTP/1.1\r\nTransfer-Encoding: chunked\r\n\r\n0\r\n\r\n", b"400"),
            ):
                with self.subTest(text=text[:40]), connect(front.http_address()) as line:
                    line.sendall(text)
                    self.assertEqual(read_all(line).split(b" ")[1], status)

    def test_names_of_strangers_are_misdirected(self):
        """A web page whose name a stranger's DNS leads here (DNS rebinding) reads nothing."""
        for options, names in ((), ("evil.example", "evil.example:80")), (
            ("--http-name", "cache.example.org"),
            ("a.b",),
        ):
            with self.subTest(options=options), Running("--http", "0", *options) as front:
                for host, status in (
                    *((name, b"421") for name in names),
                    *((name, b"200") for name in ("127.0.0.1:9464", "localhost", "[::1]:1", "cache7:9464")),
                    ("cache.example.org", b"200" if options else b"421"),
                ):
                    with self.subTest(host=host), connect(front.http_address()) as line:
                        request = f"GET /metrics HTTP/1.1\r\nHost: {host}\r\nConnection: close\r\n\r\n"
                        line.sendall(request.encode())
                        self.assertEqual(read_all(line).split(b" ")[1], status)

    def test_the_17th_viewer_is_told_that_there_are_16(self):
        request = b"GET /events HTTP/1.1\r\nHost: a\r\n\r\n"
        with Running("--http", "0") as front:
            lines = [connect(front.http_address()) for _ in range(17)]
            for line in lines:
                self.addCleanup(line.close)
                line.sendall(request)
                first = line.recv(65_536)
                while b"event: " not in first:
                    first += line.recv(65_536)
            self.assertTrue(first.startswith(b"HTTP/1.1 200 OK\r\n"), first)
            self.assertTrue(first.endswith(b"retry: 10000\nevent: full\ndata: 16\n\n"), first)

    def test_a_server_that_has_ended_is_said(self):
        with Running("--http", "0") as front, front.open() as a:
            self.ask(a, put(1, 1) + END, DONE + ENDED)
            with connect(front.http_address()) as line:
                line.sendall(b"GET /events HTTP/1.1\r\nHost: a\r\n\r\n")
                first = line.recv(65_536)
                self.assertIn(b"event: state\n", first)
                os.kill(front.server(), signal.SIGKILL)
                text = (first + read_all(line)).decode()
            self.assertEqual(front.end(), 3)
            last = text.rstrip().split("\n\n")[-1]
            self.assertTrue(last.startswith("event: ended\ndata: "), last)
            self.assertIn("signal: 9 (SIGKILL)", json.loads(last.split("data: ")[1]))

    def test_events_have_samples_every_second(self):
        with Running("--http", "0") as front, connect(front.http_address()) as line, front.open() as a:
            line.sendall(b"GET /events HTTP/1.1\r\nHost: a\r\n\r\n")
            self.define(a, plus(), 0)
            for n in range(100):
                self.ask(a, put(n, n) + END, DONE + ENDED)
            text, begun, events = b"", time.monotonic(), []
            while time.monotonic() - begun < 3.5 or len(events) < 3 and time.monotonic() - begun < PATIENCE:
                if select.select([line], [], [], 0.1)[0]:
                    text += line.recv(65_536)
                # The last one may not be whole.
                whole = [it for it in text.decode(errors="replace").split("\n\n")[:-1] if it.startswith("event: state")]
                events = [json.loads(it.split("data: ")[1]) for it in whole]
            self.assertGreaterEqual(len(events), 3)
            self.assertEqual(events[-1]["totals"]["jentry_requests_total"], 101)
            self.assertEqual([(it["number"], it["steps"], it["runs"]) for it in events[-1]["classes"]], [(7, 14, 0)])
            self.assertEqual([it["requests"] for it in events[-1]["connections"]], [101])
            times = [point[0] for it in events for point in it["history"]]
            self.assertEqual(times, sorted(set(times)))


class Hostile(FrontTest):
    """Hostile HTTP clients neither slow down calls nor make the front's memory grow."""

    def rate(self, line, seconds):
        """Returns calls a second over one connection, in rounds of one call."""
        count, begun = 0, time.monotonic()
        while time.monotonic() - begun < seconds:
            for _ in range(20):
                self.ask(line, get(1) + END, value(None) + ENDED)
            count += 20
        return count / (time.monotonic() - begun)

    def test_1000_connections_that_send_a_byte_a_second(self):
        soft, hard = resource.getrlimit(resource.RLIMIT_NOFILE)
        if hard != resource.RLIM_INFINITY and hard < 2_048:
            self.skipTest("this process may not open 2,048 files")
        resource.setrlimit(resource.RLIMIT_NOFILE, (max(soft, 2_048), hard))
        self.addCleanup(resource.setrlimit, resource.RLIMIT_NOFILE, (soft, hard))
        with Running("--http", "0") as front, front.open() as a:
            self.rate(a, 0.5)
            memory, alone, beside, answered = front.memory(), [], [], []
            # A machine whose processors others use differently from second to second has more tries.
            while len(alone) < 3 or len(alone) < 9 and statistics.median(beside) <= 0.5 * statistics.median(alone):
                alone.append(self.rate(a, 1.5))
                dripper = multiprocessing.Process(target=drip, args=(front.http_address(), 1_000, 4), daemon=True)
                dripper.start()
                time.sleep(1.5)
                beside.append(self.rate(a, 1.5))
                begun = time.monotonic()
                self.assertEqual(front.http("/healthz")[0], 200)
                answered.append(time.monotonic() - begun)
                files = len(os.listdir(f"/proc/{front.process.pid}/fd"))
                self.assertLessEqual(files, MOST + 24)
                dripper.join(PATIENCE)
            grown = front.memory() - memory
            print(
                f"alone {statistics.median(alone):.0f} calls/s, beside 1,000 slow connections {statistics.median(beside):.0f}; "
                f"health in {max(answered):.3f} s at most; memory {grown:+} bytes"
            )
            self.assertGreater(statistics.median(beside), 0.5 * statistics.median(alone))
            self.assertLess(grown, 4 << 20)

    def test_300_changed_requests(self):
        rng = random.Random(1)
        with Running("--http", "0") as front, front.open() as a:
            self.ask(a, put(1, 5) + END, DONE + ENDED)
            front.metrics()
            memory = front.memory()
            for n in range(300):
                text = bytearray(b"".join(rng.choice(GOOD) for _ in range(rng.randrange(1, 4))))
                for _ in range(rng.randrange(1, 6)):
                    at = rng.randrange(len(text))
                    text[at : at + rng.randrange(2)] = bytes(rng.randrange(256) for _ in range(rng.randrange(1, 4)))
                with connect(front.http_address()) as line:
                    try:
                        line.sendall(text)
                        line.shutdown(socket.SHUT_WR)
                        line.settimeout(0.02)
                        line.recv(65_536)
                    except (ConnectionError, socket.timeout):
                        pass
                if n % 30 == 0:
                    self.ask(a, get(1) + END, value(5) + ENDED)
            self.assertEqual(front.http("/healthz")[0], 200)
            self.ask(a, get(1) + END, value(5) + ENDED)
            self.assertLess(front.memory() - memory, 4 << 20)

    def test_who_takes_no_answers_takes_no_memory(self):
        with Running("--http", "0") as front, front.open() as a:
            front.metrics()
            memory, lines = front.memory(), []
            try:
                for n in range(200):
                    line = socket.socket()
                    line.setsockopt(socket.SOL_SOCKET, socket.SO_RCVBUF, 4_096)
                    lines.append(line)
                    line.settimeout(60)
                    line.connect(front.http_address())
                    line.settimeout(1)
                    try:
                        line.sendall(100 * GOOD[n % 2 and 3])
                    except OSError:
                        pass
                time.sleep(2)
                self.assertEqual(front.http("/healthz")[0], 200)
                self.ask(a, put(1, 5) + END, DONE + ENDED)
                self.assertLess(front.memory() - memory, 16 << 20)
            finally:
                for line in lines:
                    line.close()

    def test_a_request_that_takes_too_long_is_closed(self):
        with Running("--http", "0") as front, connect(front.http_address()) as line:
            begun = time.monotonic()
            line.sendall(b"GET / HTT")
            self.assertTrue(is_ended(line))
            self.assertTrue(8 < time.monotonic() - begun < PATIENCE)


if __name__ == "__main__":
    unittest.main()
