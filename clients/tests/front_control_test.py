#!/usr/bin/env python3
"""front_control_test: `jentry-front ctl` and the control socket, also misused. running.py has the requirements."""
import json
import os
import signal
import socket
import stat
import subprocess
import time
import unittest

from class_files import another, plus
from frames import DONE, END, ENDED, define, denied, frame, get, invoke, put, result, value
from running import FRONT, PATIENCE, STAND_IN, FrontTest, Running, has_more, is_ended, take_frame

ME = os.getuid()
PEER = f"uid:{ME}"
STEP_LIMIT = frame(b"\2\x1b\0\0\0\0")


class Controlled(Running):
    """A front with a control socket."""

    def __init__(self, *options, server=None, **started):
        self.control = None
        super().__init__(*options, server=server or STAND_IN, **started)

    def ctl(self, *words, status=0):
        """Runs a command, which has to end with this status. Returns what it prints, on standard error if the status isn't 0."""
        told = subprocess.run(
            [FRONT, "ctl", "--control", self.control, *words],
            stdin=subprocess.DEVNULL,
            capture_output=True,
            text=True,
            timeout=PATIENCE,
            check=False,
        )
        if told.returncode != status:
            raise AssertionError(f"{words}: status {told.returncode}\n{told.stdout}{told.stderr}")
        return told.stderr if status else told.stdout

    def asked(self, *words):
        """Returns the reply to a command as JSON."""
        return json.loads(self.ctl("--json", *words))

    def quota(self, name):
        return self.asked("quota")[name]

    def send(self, text):
        """Sends bytes to the control socket and ends them. Returns the whole reply."""
        with socket.socket(socket.AF_UNIX) as line:
            line.settimeout(PATIENCE)
            line.connect(self.control)
            reply = b""
            try:
                line.sendall(text)
                line.shutdown(socket.SHUT_WR)
            except ConnectionError:
                pass
            try:
                while part := line.recv(65_536):
                    reply += part
            except ConnectionError:
                pass
            return reply

    def until(self, meant):
        """Waits until the status is as it is meant."""
        deadline = time.monotonic() + PATIENCE
        while not meant(json.loads(self.send(b'{"command":"status"}'))["ok"]):
            if time.monotonic() > deadline:
                raise TimeoutError("\n".join(self.words))
            time.sleep(0.01)


def controlled(*options, **started):
    """Starts a front whose control socket is beside its other one."""
    folder = os.environ.get("TMPDIR", "/tmp")
    path = os.path.join(folder, f"control-{os.getpid()}-{time.monotonic_ns()}")
    front = Controlled("--control", path, *options, **started)
    front.control = path
    return front


class Lists(FrontTest):
    def test_classes_have_id_name_runs_cost_and_who_defined_them(self):
        with controlled() as front, front.open() as a:
            self.define(a, plus(), 0)
            self.ask(a, put(7, 1) + invoke(0, 7) + invoke(0, 7) + END, DONE + result(2) + result(3) + ENDED)
            rows = front.asked("classes")
            self.assertEqual(len(rows), 8)
            (row,) = [row for row in rows if row["name"] == "Row"]
            wanted = {"runs": 2, "exceptions": 0, "steps": 14, "cost": 28, "connection": 2, "bytes": len(plus())}
            self.assertEqual({name: row[name] for name in wanted}, wanted)
            self.assertEqual(row["from"], f"pid {os.getpid()} uid {ME}")
            self.assertRegex(row["id"], "^[0-9a-f]{40}$")
            self.assertEqual({it["from"] for it in rows if it is not row}, {"the front"})
            lines = front.ctl("classes").splitlines()
            self.assertEqual(lines[0].split()[:2] + lines[0].split()[-1:], ["NUMBER", "ID", "NAME"])
            self.assertTrue(any(line.endswith("  Row") and row["id"] in line for line in lines), lines)

    def test_peers_and_connections_are_those_that_are_open(self):
        with controlled() as front, front.open() as a, front.open() as b:
            self.define(a, plus(), 0)
            self.ask(b, put(7, 1) + get(7) + END, DONE + value(1) + ENDED)
            (peer,) = front.asked("peers")
            self.assertEqual(peer, {"peer": PEER, "connections": 2, "classes": 1, "waiting_steps": 0})
            rows = front.asked("connections")
            self.assertEqual([(it["number"], it["requests"], it["peer"]) for it in rows], [(2, 1, PEER), (3, 2, PEER)])
            self.assertEqual({it["state"] for it in rows}, {"idle"})
            status = front.asked("status")
            self.assertEqual((status["connections"], status["connections_limit"], status["classes"]), (2, 1_024, 8))
            self.assertEqual((status["process"], status["sockets"]), (front.process.pid, [front.place]))

    def test_a_round_that_waits_is_seen(self):
        with controlled() as front, front.open() as a:
            os.kill(front.server(), signal.SIGSTOP)
            try:
                a.sendall(put(1, 1) + END)
                front.until(lambda it: it["waiting_rounds"] == 1)
                (peer,), (row,) = front.asked("peers"), front.asked("connections")
                self.assertEqual((peer["waiting_steps"], row["state"]), (64, "waits for the server"))
                self.assertGreater(row["waits"], 0)
            finally:
                os.kill(front.server(), signal.SIGCONT)
            self.told(a, DONE + ENDED)

    def test_4096_classes_are_listed(self):
        with controlled("--classes", "4096") as front, front.open() as a:
            a.sendall(b"".join(define(another(n)) for n in range(4_089)) + END)
            self.assertEqual({take_frame(a)[0] for _ in range(4_089)}, {1})
            self.told(a, ENDED)
            self.assertEqual(len(front.asked("classes")), 4_096)
            # Whoever reads only the first lines gets no message.
            words = f"{FRONT} ctl --control {front.control} classes | head -n 1"
            told = subprocess.run(["bash", "-c", f"set -o pipefail; {words}"], capture_output=True, check=False)
            self.assertEqual((told.returncode, told.stderr, told.stdout[:6]), (0, b"", b"NUMBER"))

    def test_a_name_is_printed_without_control_characters(self):
        name = b"\x1b[2J\x07"
        file = plus().replace(b"\1\0\3Row", b"\1\0" + bytes([len(name)]) + name)
        with controlled() as front, front.open() as a:
            self.define(a, file, 0)
            text = front.ctl("classes")
            self.assertIn("\\u{1b}[2J\\u{7}", text)
            self.assertNotIn("\x1b", text)


class Kicks(FrontTest):
    def test_one_connection(self):
        with controlled("--http", "0") as front, front.open() as a, front.open() as b:
            for line in (a, b):
                self.ask(line, put(1, 1) + END, DONE + ENDED)
            self.assertEqual(front.ctl("kick", "2"), "closed 1 connections\n")
            self.assertTrue(is_ended(a))
            self.ask(b, get(1) + END, value(1) + ENDED)
            self.assertEqual(front.metrics()['jentry_connections_closed_total{reason="kicked"}'], 1)
            self.assertIn("there is no connection 2", front.ctl("kick", "2", status=1))
            front.logged(rf"control: Kick.* by pid \d+ uid {ME}: 1 connections closed")

    def test_all_connections_of_a_peer_and_what_they_sent(self):
        """Their round that is at the server ends there; what waits is dropped, and others are served."""
        with controlled("--tcp", "0", server=STAND_IN + ["--slow", "0.3"]) as front:
            port = int(front.logged(r"listening on 127\.0\.0\.1:\d+$")[0].rsplit(":", 1)[1])
            lines = [front.open() for _ in range(20)]
            for n, line in enumerate(lines):
                self.addCleanup(line.close)
                line.sendall(put(n, n) + END)
            with socket.create_connection(("127.0.0.1", port), PATIENCE) as other:
                front.until(lambda it: it["connections"] == 21)
                self.assertEqual(front.asked("kick", PEER), {"kicked": 20})
                self.assertTrue(all(map(is_ended, lines)))
                self.ask(other, put(1, 1) + END, DONE + ENDED)
                (peer,) = [it for it in front.asked("peers") if it["connections"]]
                self.assertEqual((peer["peer"], peer["waiting_steps"]), ("127.0.0.1", 0))
                self.assertEqual(front.asked("kick", "127.0.0.1"), {"kicked": 1})
                self.assertTrue(is_ended(other))

    def test_who_is_no_peer_is_an_error(self):
        with controlled() as front:
            for target, wanted in (
                ("uid:4711", "the peer uid:4711 has no connections"),
                ("uid:nobody-has-this", "there is no such user"),
                ("everybody", "such as uid:1000 or 10.0.0.5"),
            ):
                self.assertIn(wanted, front.ctl("kick", target, status=1))

    def test_who_waits_for_a_class_of_another(self):
        """The verdict still comes to those who weren't kicked."""
        with controlled(server=STAND_IN + ["--slow", "3"]) as front, front.open() as a, front.open() as b:
            a.sendall(define(plus()) + END)
            time.sleep(0.1)
            b.sendall(define(plus()) + END)
            time.sleep(0.1)
            front.ctl("kick", "2")
            self.assertTrue(is_ended(a))
            self.assertEqual(take_frame(b)[0], 1)


class Quotas(FrontTest):
    def test_each_has_the_value_of_its_option(self):
        options = ("--classes", "7", "--steps", "1234", "--idle", "77", "--connections", "9")
        with controlled(*options) as front:
            quotas = front.asked("quota")
            self.assertEqual([quotas[it] for it in ("classes", "steps", "idle", "connections")], [7, 1_234, 77, 9])
            self.assertEqual((quotas["peer-classes"], quotas["round"], len(quotas)), (1_024, 60, 12))
            self.assertIn("define-bytes       65536\n", front.ctl("quota"))

    def test_they_hold_from_the_change_on(self):
        with controlled() as front, front.open() as a, front.open() as b:
            self.define(a, another(1), 0)
            front.ctl("quota", "classes=1", "peer-classes=2")
            self.ask(a, define(another(2)) + END, denied(4) + ENDED)
            self.define(b, another(2), 0)
            with front.open() as c:
                self.ask(c, define(another(3)) + END, denied(4) + ENDED)
                front.ctl("quota", "classes=2", "peer-classes=3")
                self.define(c, another(3), 0)
            front.ctl("quota", "classes=9", "peer-classes=9", "max-steps=13")
            self.ask(a, define(another(4)) + END, STEP_LIMIT + ENDED)
            front.ctl("quota", "requests=2")
            self.ask(a, 2 * get(1) + END, 2 * value(None) + ENDED)
            self.send_all(a, 3 * get(1) + END)
            self.assertTrue(is_ended(a))
            front.logged(rf"control: Quota.*requests.* by pid \d+ uid {ME}")

    def test_connections_are_limited_from_the_change_on(self):
        with controlled() as front, front.open() as a, front.open() as b:
            for line in (a, b):
                self.ask(line, get(1) + END, value(None) + ENDED)
            front.ctl("quota", "connections=1")
            self.ask(a, get(1) + END, value(None) + ENDED)
            with front.open() as c:
                self.assertTrue(is_ended(c))
            front.ctl("quota", "connections=3")
            with front.open() as c:
                self.ask(c, get(1) + END, value(None) + ENDED)

    def test_times_hold_for_connections_that_are_open(self):
        with controlled("--round", "0") as front, front.open() as a, front.open() as b:
            a.sendall(put(1, 1))
            self.ask(b, get(1) + END, value(None) + ENDED)
            time.sleep(0.5)
            self.assertFalse(has_more(a))
            front.ctl("quota", "round=1")
            self.assertTrue(is_ended(a))
            front.ctl("quota", "idle=1")
            self.assertTrue(is_ended(b))

    def test_the_largest_round_is_closed_when_its_room_shrinks(self):
        with controlled("--requests", "1000000") as front, front.open() as a, front.open() as b:
            b.sendall(put(1, 1))
            a.sendall(250_000 * get(1))
            front.until(lambda _: front.asked("connections")[0]["received"] == 250_000 * len(get(1)))
            self.assertFalse(has_more(a))
            front.ctl("quota", "round-bytes=1048576")
            self.assertTrue(is_ended(a))
            self.ask(b, END, DONE + ENDED)

    def test_an_impossible_one_changes_nothing(self):
        with controlled() as front:
            before = front.asked("quota")
            for words, wanted in (
                (["steps=5", "steps=0"], "steps is from 1 to 1000000000, and not 0"),
                (["idle=5", "forget=1"], 'there is no quota "forget"; those that can be changed are connections, '),
                (["peer-classes=3"], "classes, 64, can't be above peer-classes, 3; change both"),
                (["idle"], "expected NAME=VALUE"),
                (["idle=x"], "is no number"),
            ):
                self.assertIn(wanted, front.ctl("quota", *words, status=1))
            self.assertEqual(front.asked("quota"), before)


class Drains(FrontTest):
    def test_the_front_ends_once_it_has_answered(self):
        with controlled(server=STAND_IN + ["--slow", "1"]) as front, front.open() as a:
            a.sendall(put(1, 1) + END)
            front.until(lambda it: it["waiting_rounds"] == 1)
            self.assertEqual(front.ctl("drain"), "the front ends once it has answered 1 connections\n")
            self.told(a, DONE + ENDED)
            self.assertEqual(front.process.wait(PATIENCE), -signal.SIGTERM)
            front.logged(rf"control: Drain by pid \d+ uid {ME}")
            self.assertFalse(os.path.exists(front.control))

    def test_a_second_drain_is_no_second_signal(self):
        """A second SIGTERM would end the front at once, without the reply that is out."""
        with controlled("--drain", "30", server=STAND_IN + ["--slow", "2"]) as front, front.open() as a:
            with socket.socket(socket.AF_UNIX) as first, socket.socket(socket.AF_UNIX) as second:
                for line in (first, second):
                    line.settimeout(PATIENCE)
                    line.connect(front.control)
                a.sendall(put(1, 1) + END)
                front.until(lambda it: it["waiting_rounds"] == 1)
                first.sendall(b'{"command":"drain"}\n')
                self.assertEqual(json.loads(first.recv(100)), {"ok": {"drains": 1}})
                front.logged("answering what 1 connections have sent")
                second.sendall(b'{"command":"drain"}\n')
                self.assertEqual(json.loads(second.recv(100)), {"ok": {"drains": None}})
                self.told(a, DONE + ENDED)


class Sockets(FrontTest):
    def test_it_is_its_owners_alone(self):
        with controlled(preexec_fn=lambda: os.umask(0)) as front:
            self.assertEqual(stat.S_IMODE(os.stat(front.control).st_mode), 0o600)
        with controlled("--control-mode", "0660") as front:
            self.assertEqual(stat.S_IMODE(os.stat(front.control).st_mode), 0o660)

    @unittest.skipUnless(os.geteuid() == 0, "only root can become another user")
    def test_another_user_is_refused_and_told_why(self):
        with controlled() as front:
            parents = os.path.dirname(front.control)
            told = subprocess.run(
                ["setpriv", "--reuid=65534", "--regid=65534", "--clear-groups"]
                + ["/usr/bin/python3", "-c", "import socket,sys; socket.socket(1).connect(sys.argv[1])", front.control],
                capture_output=True,
                text=True,
                check=False,
            )
            self.assertIn("PermissionError", told.stderr, parents)

    def test_there_is_none_without_the_option(self):
        with Running(server=STAND_IN) as front:
            other = front.folder.name + "/none"
            told = subprocess.run(
                [FRONT, "ctl", "--control", other, "peers"], capture_output=True, text=True, check=False
            )
            self.assertEqual((told.returncode, told.stdout), (3, ""))
            self.assertIn(f"can't connect to {other}: No such file or directory", told.stderr)
            self.assertIn("started with --control PATH", told.stderr)
            # The cache's own socket is none either.
            told = subprocess.run(
                [FRONT, "ctl", "--control", front.place, "peers"], capture_output=True, text=True, check=False
            )
            self.assertEqual(told.returncode, 3)
            self.assertIn("isn't a front's control socket", told.stderr)

    def test_only_a_dead_socket_is_replaced(self):
        with controlled() as front:
            with open(front.place + "-file", "w", encoding="utf-8") as file:
                file.write("precious")
            for path, status in ((front.place + "-file", 1), (front.control, 3)):
                words = [FRONT, "--unix", front.place + "2", "--control", path, *STAND_IN]
                told = subprocess.run(words, capture_output=True, text=True, timeout=PATIENCE, check=False)
                self.assertEqual(told.returncode, status, told.stderr)
                self.assertIn(f"can't listen on {path}", told.stderr)
            front.asked("status")
            front.process.kill()
            front.process.wait(PATIENCE)
            self.assertIn("has ended", front.ctl("status", status=3))
            with Controlled("--control", front.control) as again:
                again.control = front.control
                again.asked("status")

    def test_a_front_whose_server_hangs_is_still_controlled(self):
        with controlled() as front, front.open() as a:
            self.ask(a, get(1) + END, value(None) + ENDED)
            os.kill(front.server(), signal.SIGSTOP)
            try:
                a.sendall(get(1) + END)
                front.until(lambda it: it["batch_age"] > 0.2)
                self.assertEqual(front.asked("kick", PEER), {"kicked": 1})
                self.assertTrue(is_ended(a))
            finally:
                os.kill(front.server(), signal.SIGCONT)

    def test_misuse(self):
        """What is no request gets a reply that says so, and the front and its other operators go on."""
        with controlled() as front, front.open() as a:
            for text, wanted in (
                (b"", b"expected a line of JSON"),
                (b"\n", b"expected a line of JSON"),
                (put(1, 1) + END, b"expected a line of JSON"),
                (b"\xff" * 4_096 + b"\n", b"expected a line of JSON"),
                (b"[" * 4_096, b"expected a line of JSON"),
                (b'{"command":"forget"}\n', b"there is no such command"),
                (b'{"command":7}', b"there is no such command"),
                (b'{"command":"quota","set":{"steps":1e99}}', b"steps is no number"),
                (b'{"command":"kick","target":99999999999999999999}', b"no connection's number"),
                (b"x" * 100_000, b"the request is too long"),
            ):
                with self.subTest(text=text[:20]):
                    self.assertIn(wanted, front.send(text))
            self.ask(a, put(1, 1) + END, DONE + ENDED)
            front.asked("status")

    def test_operators_who_are_slow_hold_up_nobody_for_long(self):
        with controlled() as front, front.open() as a:
            lines = []
            for _ in range(8):
                lines.append(socket.socket(socket.AF_UNIX))
                self.addCleanup(lines[-1].close)
                lines[-1].connect(front.control)
                lines[-1].sendall(b"{")
            deadline = time.monotonic() + PATIENCE
            while b"too many operators" not in front.send(b'{"command":"status"}') and time.monotonic() < deadline:
                pass
            self.assertIn("too many operators", front.ctl("status", status=1))
            self.ask(a, put(1, 1) + END, DONE + ENDED)
            for line in lines:
                line.settimeout(PATIENCE)
                self.assertIn(b"took too long", line.recv(4_096))
            front.asked("status")

    def test_operators_who_leave(self):
        with controlled() as front:
            for _ in range(200):
                with socket.socket(socket.AF_UNIX) as line:
                    line.connect(front.control)
                    line.sendall(b'{"command":"classes"}\n')
            deadline = time.monotonic() + PATIENCE
            while b"too many" in front.send(b'{"command":"status"}') and time.monotonic() < deadline:
                time.sleep(0.02)
            self.assertEqual(front.asked("status")["connections"], 0)


if __name__ == "__main__":
    unittest.main()
