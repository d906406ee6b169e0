#!/usr/bin/env python3
"""front_socket_test: the files of a front's unix sockets, and the signals that a front takes. running.py has the requirements."""
import os
import signal
import socket
import subprocess
import tempfile
import time
import unittest

from frames import DONE, END, ENDED, get, put, value
from running import FRONT, PATIENCE, STAND_IN, FrontTest, Running


def tried(*words):
    """Runs a front that shouldn't start, and returns its status and its messages."""
    return subprocess.run(
        [FRONT, *words, *STAND_IN], stdin=subprocess.DEVNULL, stderr=subprocess.PIPE, text=True, timeout=PATIENCE
    )


def wait_until(is_so):
    """Waits until `is_so()` is true, for PATIENCE seconds at most, and returns its last value."""
    end = time.monotonic() + PATIENCE
    while not is_so() and time.monotonic() < end:
        time.sleep(0.02)
    return is_so()


class SocketFiles(FrontTest):
    def setUp(self):
        folder = tempfile.TemporaryDirectory()
        self.addCleanup(folder.cleanup)
        self.path = os.path.join(folder.name, "place")

    def is_kept(self):
        """Checks that a front refuses the path, and says so."""
        told = tried("--unix", self.path)
        self.assertEqual(told.returncode, 1, told.stderr)
        self.assertIn(f"can't listen on {self.path}: the file exists and isn't a socket", told.stderr)

    def test_a_regular_file_is_not_deleted(self):
        with open(self.path, "w", encoding="utf-8") as file:
            file.write("x\n")
        self.is_kept()
        with open(self.path, encoding="utf-8") as file:
            self.assertEqual(file.read(), "x\n")

    def test_no_other_file_is_deleted_either(self):
        for make in (os.mkdir, os.mkfifo, lambda path: os.symlink("/nowhere", path)):
            with self.subTest(make=make):
                make(self.path)
                before = os.lstat(self.path).st_ino
                self.is_kept()
                self.assertEqual(os.lstat(self.path).st_ino, before)
                os.rename(self.path, self.path + str(before))

    def test_a_socket_that_another_process_listens_on_is_kept(self):
        with socket.socket(socket.AF_UNIX) as other:
            other.bind(self.path)
            other.listen()
            told = tried("--unix", self.path)
            self.assertEqual(told.returncode, 3)
            self.assertIn(f"can't listen on {self.path}: another process listens on it", told.stderr)
            with socket.socket(socket.AF_UNIX) as line:
                line.connect(self.path)

    def test_the_end_of_an_old_front_leaves_the_socket_of_a_new_one(self):
        with Running() as old:
            os.rename(old.place, old.place + ".old")
            new = subprocess.Popen([FRONT, "--unix", old.place, *STAND_IN], stderr=subprocess.PIPE, text=True)
            try:
                self.assertIn("listening", new.stderr.readline())
                old.process.terminate()
                old.process.wait(PATIENCE)
                with old.open() as line:
                    self.ask(line, put(1, 1) + END, DONE + ENDED)
                new.terminate()
                new.wait(PATIENCE)
                self.assertFalse(os.path.exists(old.place))
            finally:
                new.kill()
                new.wait(PATIENCE)
                new.stderr.close()

    def test_the_end_of_a_server_leaves_the_socket_of_a_new_front(self):
        with Running() as old:
            os.rename(old.place, old.place + ".old")
            with socket.socket(socket.AF_UNIX) as new:
                new.bind(old.place)
                os.kill(old.server(), signal.SIGKILL)
                self.assertEqual(old.end(), 3)
                self.assertTrue(os.path.exists(old.place))


class HangUp(FrontTest):
    def test_sighup_ends_nothing(self):
        with Running() as front, front.open() as a:
            self.ask(a, put(1, 5) + END, DONE + ENDED)
            front.process.send_signal(signal.SIGHUP)
            self.assertIn("INFO", front.logged("SIGHUP")[0])
            self.ask(a, get(1) + END, value(5) + ENDED)
            self.assertIsNone(front.process.poll())

    def test_sighup_waits_for_no_reader_of_the_log(self):
        """The reader of standard error takes nothing, so that no more lines fit into the queue; SIGTERM ends the front all the same."""
        with tempfile.TemporaryDirectory() as folder:
            place = os.path.join(folder, "socket")
            words = [FRONT, "--unix", place, "--log", "debug", *STAND_IN]
            with subprocess.Popen(words, stderr=subprocess.PIPE) as front:
                try:
                    self.assertTrue(wait_until(lambda: os.path.exists(place)))
                    for _ in range(2_000):
                        with socket.socket(socket.AF_UNIX) as line:
                            line.settimeout(PATIENCE)
                            line.connect(place)
                            self.ask(line, END, ENDED)
                    front.send_signal(signal.SIGHUP)
                    time.sleep(0.5)
                    front.terminate()
                    self.assertEqual(front.wait(PATIENCE), -signal.SIGTERM)
                finally:
                    front.kill()

    def test_sighup_reopens_the_log(self):
        with tempfile.TemporaryDirectory() as folder:
            log, place = os.path.join(folder, "log"), os.path.join(folder, "socket")

            def lines(path):
                if not os.path.exists(path):
                    return ""
                with open(path, encoding="utf-8") as file:
                    return file.read()

            words = [FRONT, "--unix", place, "--log-file", log, *STAND_IN]
            with subprocess.Popen(words, stderr=subprocess.PIPE, text=True) as front:
                self.addCleanup(front.kill)
                self.assertTrue(wait_until(lambda: "listening on " + place in lines(log)))
                os.rename(log, log + ".1")
                front.send_signal(signal.SIGHUP)
                self.assertTrue(wait_until(lambda: "SIGHUP" in lines(log)))
                front.terminate()
                front.wait(PATIENCE)
                self.assertIn("ended by SIGTERM", lines(log))
                self.assertNotIn("ended by SIGTERM", lines(log + ".1"))
                self.assertEqual(front.stderr.read(), "")


if __name__ == "__main__":
    unittest.main()
