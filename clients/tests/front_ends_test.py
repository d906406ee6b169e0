#!/usr/bin/env python3
"""front_ends_test: how a front starts and exits, and what happens at its limits. running.py has the requirements."""
import os
import signal
import socket
import struct
import subprocess
import tempfile
import time
import unittest

from class_files import another, heavy, heavy_steps, plus
from frames import DONE, END, ENDED, define, denied, frame, get, invoke, invoke_all, put, result, results, value
from running import FRONT, PATIENCE, PROGRAM, SERVER, STAND_IN, FrontTest, Running, has_more, is_ended, take, take_frame

# running.py has named its folder.
from pace import seconds_an_instruction


class ClassesRunOut(FrontTest):
    def test_64_classes_then_denied(self):
        with Running() as front, front.open() as a, front.open() as b:
            for n in range(64):
                self.define(a, another(n), n)
            self.ask(a, define(another(64)) + END, denied(4) + ENDED)
            self.define(a, another(3), 64)
            self.define(b, another(64), 0)
            self.define(a, another(64), 65)

    @unittest.skipUnless(PROGRAM, "the stand-in has no limit of classes")
    def test_4096_classes_of_all_then_denied(self):
        """Seven of them are the clients' built-in ones."""
        with Running("--classes", "4096") as front, front.open() as a, front.open() as b:
            for n in range(4_089):
                self.define(a, another(n), n)
            self.ask(b, define(another(4_089)) + END, denied(4) + ENDED)
            self.define(b, another(7), 0)
            self.ask(b, define(another(4_089)) + END, denied(4) + ENDED)

    def test_a_connection_has_4096_numbers(self):
        with Running() as front, front.open() as a:
            told = b"".join(struct.pack(">IBIII", 13, 1, n, 14, 0) for n in range(4_096))
            self.ask(a, 4_100 * define(plus()) + END, told + 4 * denied(4) + ENDED)

    def test_many_bring_one_class_at_once(self):
        with Running("--classes", "1") as front:
            lines = [front.open() for _ in range(100)]
            for line in lines:
                line.sendall(define(plus()) + END)
            for line in lines:
                self.assertEqual(take_frame(line)[:5], b"\1\0\0\0\0")
                self.assertEqual(take(line, 5), ENDED)
                line.close()

    @unittest.skipUnless(PROGRAM, "the stand-in refuses no class")
    def test_a_class_that_is_refused(self):
        with Running() as front, front.open() as a:
            refused = frame(b"\2\3\0\0\0\0")
            self.ask(a, define(b"abcd" + plus()[4:]) + END, refused + ENDED)
            self.define(a, plus(), 0)


@unittest.skipUnless(PROGRAM, "the stand-in runs no classes")
class Heavy(FrontTest):
    """A light call is run between the batches of heavy rounds: its reply comes while nearly all of their work is still to be done. That
    work takes seconds, and the front is stopped before its end. A slow build gets a class and batches of fewer instructions.
    """

    @classmethod
    def setUpClass(cls):
        """Chooses a class whose call takes a millisecond or more in this build."""
        instruction = seconds_an_instruction(PROGRAM)
        levels = next((it for it in range(1, 5) if heavy_steps(it) * instruction > 0.001), 5)
        cls.file, cls.steps = heavy(levels), heavy_steps(levels)

    def front(self):
        """Starts a front whose batches are of four heavy calls."""
        return Running("--steps", str(4 * self.steps))

    def light_calls(self, line, heavy_lines):
        for n in range(5):
            self.ask(line, put(-1, n) + get(-2) + END, DONE + value(None) + ENDED)
        self.assertEqual(
            [n for n, it in enumerate(heavy_lines) if has_more(it)], [], "heavy rounds were answered before light calls"
        )

    def test_beside_one_connection(self):
        with self.front() as front, front.open() as a, front.open() as b:
            self.assertEqual(self.define(a, self.file, 0), self.steps)
            a.sendall(b"".join(invoke(0, key) for key in range(4_096)) + END)
            self.light_calls(b, [a])

    def test_beside_64_connections(self):
        with self.front() as front, front.open() as b:
            lines = [front.open() for _ in range(64)]
            for line in lines:
                self.addCleanup(line.close)
                self.define(line, self.file, 0)
            for line in lines:
                line.sendall(b"".join(invoke(0, key) for key in range(64)) + END)
            self.light_calls(b, lines)

    def test_beside_an_invoke_all_of_many_keys(self):
        with self.front() as front, front.open() as a, front.open() as b:
            self.define(a, self.file, 0)
            a.sendall(invoke_all(0, range(4_096)) + END)
            self.light_calls(b, [a])

    def test_all_are_answered(self):
        with self.front() as front:
            lines = [front.open() for _ in range(8)]
            keys = [5, 3, 5, 9, 1, 3]
            for line in lines:
                self.addCleanup(line.close)
                self.define(line, self.file, 0)
                line.sendall(4 * invoke(0, 1) + invoke_all(0, keys) + get(2) + END)
            told = [[take_frame(line) for _ in range(7)] for line in lines]
            self.assertEqual(len({repr(it) for it in told}), 1)
            self.assertEqual(told[0][0][:3], b"\6\0\1")
            (number,) = struct.unpack(">q", told[0][0][3:])
            self.assertEqual(
                told[0],
                4 * [result(number)[4:]]
                + [results([(key, number) for key in (5, 3, 9, 1)])[4:], value(None)[4:], ENDED[4:]],
            )


class Ends(FrontTest):
    def ends_with(self, option, words):
        with Running(server=STAND_IN + [option, "3"]) as front, front.open() as a, front.open() as b:
            self.ask(a, put(1, 1) + END, DONE + ENDED)
            self.ask(b, put(1, 1) + END, DONE + ENDED)
            a.sendall(put(1, 1) + put(2, 2) + END)
            self.assertTrue(is_ended(a))
            self.assertTrue(is_ended(b))
            self.assertEqual(front.end(), 3)
            self.assertIn(words, front.words[-1])
            self.assertFalse(os.path.exists(front.place))

    def test_the_server_ends(self):
        self.ends_with("--die", "the server has ended (exit status: 3): serve fault 5 NoMemory")

    def test_the_server_tells_too_much(self):
        self.ends_with("--wrong", "the server")

    def test_the_server_tells_too_little(self):
        self.ends_with("--short", "the server")

    def test_the_server_tells_another_kind_of_reply(self):
        self.ends_with("--other", "the server")

    def test_the_server_tells_a_frame_of_1_mb(self):
        self.ends_with("--huge", "the server")

    def test_the_server_tells_a_frame_of_no_length(self):
        self.ends_with("--empty", "the server")

    @unittest.skipUnless(PROGRAM, "the stand-in runs no classes")
    def test_the_server_is_killed_in_mid_round(self):
        """No reply to the round in flight or to the waiting one is sent. All connections are closed, and the front exits."""
        with Running("--steps", "1000000000") as front, front.open() as a, front.open() as b, front.open() as c:
            self.define(a, heavy(), 0)
            self.ask(b, put(1, 1) + END, DONE + ENDED)
            a.sendall(b"".join(invoke(0, key) for key in range(4_096)) + END)
            time.sleep(0.05)
            b.sendall(put(1, 2) + END)
            self.assertEqual([has_more(it) for it in (a, b, c)], 3 * [False])
            os.kill(front.server(), signal.SIGKILL)
            for it in (a, b, c):
                self.assertTrue(is_ended(it))
            self.assertEqual(front.end(), 3)
            self.assertIn("the server has ended (signal: 9 (SIGKILL))", front.words[-1])

    def test_the_server_ends_while_nobody_asks(self):
        with Running() as front, front.open() as a:
            self.ask(a, put(1, 1) + END, DONE + ENDED)
            os.kill(front.server(), signal.SIGKILL)
            self.assertTrue(is_ended(a))
            self.assertEqual(front.end(), 3)
            self.assertIn("the server has ended (signal: 9 (SIGKILL))", front.words[-1])

    def test_a_front_that_is_killed_leaves_no_server(self):
        with Running() as front:
            server = front.server()
            front.process.kill()
            front.process.wait(PATIENCE)
            end = time.monotonic() + PATIENCE
            while self.is_running(server) and time.monotonic() < end:
                time.sleep(0.02)
            self.assertFalse(self.is_running(server))

    def is_running(self, process):
        try:
            with open(f"/proc/{process}/stat") as stat:
                return stat.read().rsplit(")", 1)[1].split()[0] != "Z"
        except (FileNotFoundError, ProcessLookupError):
            return False


class Begins(FrontTest):
    def test_a_socket_that_nobody_listens_on_is_replaced(self):
        with Running() as front:
            front.process.kill()
            front.process.wait(PATIENCE)
            again = subprocess.Popen([FRONT, "--unix", front.place, *SERVER], stderr=subprocess.PIPE, text=True)
            try:
                self.assertIn("listening", again.stderr.readline())
                with front.open() as a:
                    self.ask(a, put(1, 1) + END, DONE + ENDED)
                taken = subprocess.run(
                    [FRONT, "--unix", front.place, *SERVER], stderr=subprocess.PIPE, text=True, timeout=PATIENCE
                )
                self.assertEqual(taken.returncode, 3)
                self.assertIn("can't listen", taken.stderr)
            finally:
                again.kill()
                again.wait(PATIENCE)
                again.stderr.close()

    def test_a_socket_that_is_handed_on(self):
        for family, place in ((socket.AF_UNIX, None), (socket.AF_INET, ("127.0.0.1", 0))):
            with self.subTest(family=family), Running() as folder, socket.socket(family) as listener:
                listener.bind(place or folder.place + "2")
                listener.listen()
                front = subprocess.Popen([FRONT, "--stdin", *SERVER], stdin=listener, stderr=subprocess.DEVNULL)
                try:
                    with socket.socket(family) as a:
                        a.settimeout(PATIENCE)
                        a.connect(listener.getsockname())
                        self.ask(a, put(1, 1) + END, DONE + ENDED)
                finally:
                    front.kill()
                    front.wait(PATIENCE)

    def test_a_socket_that_does_not_listen_is_refused(self):
        one, other = socket.socketpair()
        with one, other:
            words = [FRONT, "--stdin", *SERVER]
            told = subprocess.run(words, stdin=one, stderr=subprocess.PIPE, text=True, timeout=PATIENCE)
        self.assertEqual(told.returncode, 3)
        self.assertIn("can't listen on the standard input: it is a socket that doesn't listen", told.stderr)

    def test_a_start_that_fails_leaves_no_socket(self):
        with tempfile.TemporaryDirectory() as folder:
            first = ["--unix", folder + "/first", "--control", folder + "/control"]
            for words, wanted in (
                ([*first, "--unix", folder + "/none/second", *SERVER], "can't listen on"),
                ([*first, "--tcp", "256.0.0.1:1", *SERVER], "can't listen on"),
                ([*first, "--http", "256.0.0.1:1", *SERVER], "can't listen on"),
                ([*first, folder + "/jentry", "serve"], f"can't start {folder}/jentry: No such file or directory"),
                ([*first, "false"], "the server has ended (exit status: 1)"),
            ):
                with self.subTest(words=words[4:6]):
                    told = self.tried(*words)
                    self.assertEqual(told.returncode, 3, told.stderr)
                    self.assertIn(wanted, told.stderr)
                    self.assertEqual(os.listdir(folder), [])

    def tried(self, *words):
        return subprocess.run(
            [FRONT, *words], capture_output=True, stdin=subprocess.DEVNULL, text=True, timeout=PATIENCE
        )

    def test_words_that_make_no_sense(self):
        for words, wanted in (
            ([], "PROGRAM"),
            (["jentry"], "--unix <PATH>|--tcp <[HOST:]PORT>|--stdin"),
            (["--unix", "x"], "PROGRAM"),
            (["--steps", "0", "--unix", "x", "y"], "--steps <N>"),
            (["--unix", "x", "--what", "1", "y"], "--what"),
            (["--tcp", "x", "y"], "[HOST:]PORT"),
        ):
            with self.subTest(words=words):
                told = self.tried(*words)
                self.assertEqual((told.returncode, told.stdout), (1, ""))
                self.assertIn(wanted, told.stderr)
                self.assertIn("--help", told.stderr)

    def test_help_and_version(self):
        told = self.tried("--help")
        self.assertEqual((told.returncode, told.stderr), (0, ""))
        self.assertIn("--unix PATH", told.stdout)
        told = self.tried("--version")
        self.assertEqual((told.returncode, told.stderr), (0, ""))
        self.assertRegex(told.stdout, r"^jentry-front \d+\.\d+\.\d+\n$")

    def test_a_signal_removes_the_socket(self):
        for number in (signal.SIGTERM, signal.SIGINT):
            with self.subTest(number=number), Running() as front:
                self.assertTrue(os.path.exists(front.place))
                front.process.send_signal(number)
                self.assertEqual(front.process.wait(PATIENCE), -number)
                self.assertFalse(os.path.exists(front.place))


if __name__ == "__main__":
    unittest.main()
