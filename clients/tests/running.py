"""A front that runs for a test, on the built program or on fake_server.py.

JENTRY_FRONT names the front, JENTRY_PROGRAM the built program, if it is there, JENTRY_OUT a folder for the files that tests keep, and
JENTRY_PATIENCE the seconds that a test waits for a reply, by default 60 and more for a slow build.
"""
import http.client
import os
import re
import select
import socket
import struct
import subprocess
import sys
import tempfile
import threading
import time
import unittest

from frames import END, ENDED, define

HERE = os.path.dirname(os.path.abspath(__file__))
# It goes last: this folder has a module `running`, too.
sys.path.append(os.path.join(HERE, "../../tests/program"))
from pace import patience

PROGRAM = os.environ.get("JENTRY_PROGRAM")
FRONT = os.environ.get("JENTRY_FRONT")
STAND_IN = [sys.executable, os.path.join(HERE, "fake_server.py")]
SERVER = [PROGRAM, "serve"] if PROGRAM else STAND_IN
PATIENCE = patience(PROGRAM)


class Running:
    """A front on a unix socket, or on a TCP port, with its own folder. The end of the `with` block stops the front and removes the
    folder."""

    def __init__(self, *options, server=None, tcp=False, **started):
        self.folder = tempfile.TemporaryDirectory()
        self.place = os.path.join(self.folder.name, "socket")
        self.words = []
        where = ["--tcp", "0"] if tcp else ["--unix", self.place]
        command = [FRONT, *where, *options, *(server or SERVER)]
        self.process = subprocess.Popen(command, stderr=subprocess.PIPE, text=True, **started)
        for line in self.process.stderr:
            self.words.append(line.rstrip())
            if "listening" in line:
                break
        if tcp:
            host, port = self.words[-1].rsplit(" ", 1)[1].rsplit(":", 1)
            self.place = (host, int(port))
        self._listener = threading.Thread(target=self._listen, daemon=True)
        self._listener.start()

    def _listen(self):
        for line in self.process.stderr:
            self.words.append(line.rstrip())

    def __enter__(self):
        return self

    def __exit__(self, *_):
        self.process.terminate()
        self.end()
        self.folder.cleanup()

    def end(self):
        """Waits until the front exits, and returns its status."""
        status = self.process.wait(PATIENCE)
        self._listener.join(PATIENCE)
        self.process.stderr.close()
        return status

    def http(self, path, method="GET", timeout=PATIENCE):
        """Sends an HTTP request to the front. Returns the status, the headers and the body."""
        host, port = self.http_address()
        connection = http.client.HTTPConnection(host, port, timeout=timeout)
        try:
            connection.request(method, path)
            answer = connection.getresponse()
            return answer.status, dict(answer.getheaders()), answer.read().decode()
        finally:
            connection.close()

    def http_address(self):
        """Returns the host and the port that the front logged for `--http`."""
        for line in self.words:
            found = re.search(r" http on (.*):(\d+)$", line)
            if found:
                return found[1], int(found[2])
        raise ValueError("the front has no --http")

    def metrics(self):
        """Returns the metrics, by name with labels."""
        status, _, text = self.http("/metrics")
        if status != 200:
            raise ValueError(text)
        return parse_metrics(text)

    def logged(self, pattern):
        """Waits until a line of the log matches this pattern, and returns all such lines."""
        end = time.monotonic() + PATIENCE
        while time.monotonic() < end:
            lines = [line for line in self.words if re.search(pattern, line)]
            if lines:
                return lines
            time.sleep(0.02)
        raise TimeoutError("\n".join(self.words))

    def memory(self):
        """Returns the front's resident memory in bytes."""
        with open(f"/proc/{self.process.pid}/statm") as statm:
            return int(statm.read().split()[1]) * os.sysconf("SC_PAGE_SIZE")

    def processor_seconds(self):
        """Returns the processor time of the front so far."""
        with open(f"/proc/{self.process.pid}/stat", encoding="utf-8") as stat:
            words = stat.read().rsplit(")", 1)[1].split()
        return sum(map(int, words[11:13])) / os.sysconf("SC_CLK_TCK")

    def open(self):
        line = socket.socket(socket.AF_INET if isinstance(self.place, tuple) else socket.AF_UNIX)
        line.connect(self.place)  # blocks while the queue of new connections is full
        line.settimeout(PATIENCE)
        return line

    def server(self):
        """Returns the process id of the server."""
        with open(f"/proc/{self.process.pid}/task/{self.process.pid}/children") as children:
            return int(children.read().split()[0])


def parse_metrics(text):
    """Parses Prometheus's text format. Returns the values, by name with labels."""
    lines = [line.rsplit(" ", 1) for line in text.splitlines() if not line.startswith("#")]
    return {name: float(value) for name, value in lines}


def take(line, count):
    """Reads this number of bytes from a connection."""
    parts = []
    while count > 0:
        part = line.recv(min(count, 65_536))
        if not part:
            raise EOFError("the connection has ended")
        parts.append(part)
        count -= len(part)
    return b"".join(parts)


def take_frame(line):
    """Reads the next frame, and returns it without its length."""
    return take(line, int.from_bytes(take(line, 4), "big"))


def is_ended(line):
    """Returns whether a connection ends without another byte."""
    try:
        return line.recv(1) == b""
    except ConnectionError:
        return True


def has_more(line):
    """Returns whether a connection has bytes to read, or has ended, at this moment."""
    return bool(select.select([line], [], [], 0)[0])


class FrontTest(unittest.TestCase):
    """A test of a front, with the steps that most of them share."""

    def ask(self, line, text, wanted):
        line.sendall(text)
        self.told(line, wanted)

    def told(self, line, wanted):
        self.assertEqual(take(line, len(wanted)), wanted)

    def define(self, line, file, number=None):
        """Defines a class, which has to be accepted, and with this number if one is given. Returns its limit of instructions."""
        line.sendall(define(file) + END)
        told = take_frame(line)
        self.assertEqual(told[0], 1, told)
        if number is not None:
            self.assertEqual(struct.unpack_from(">I", told, 1)[0], number)
        self.assertEqual(take(line, 5), ENDED)
        return struct.unpack_from(">I", told, 5)[0]

    def send_all(self, line, text):
        """Sends bytes that may make the front end the connection, and waits for its end."""
        try:
            line.sendall(text)
            line.shutdown(socket.SHUT_WR)
            while line.recv(65_536):
                pass
        except ConnectionError:
            pass
