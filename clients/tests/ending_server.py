"""ending_server: a shared server on a unix socket for tests of clients that connect again. Each connection has its own entries and classes, as a
server that was started again has, and ends as the test says."""
import os
import socket
import tempfile
import threading

from fake_server import Server

CLOSED, DEAF = "closed at once", "reads nothing"


class EndingServer:
    """Listens at `place`. Each of `plans` is for one connection: the number of the round that it reads and doesn't answer, CLOSED, DEAF, or None to
    serve on; later connections are served. `received` has the requests of each connection. The server answers while `goes_on` is set.
    """

    def __init__(self, *plans, classes=4_096):
        self._folder = tempfile.TemporaryDirectory()
        self.place = os.path.join(self._folder.name, "socket")
        self._plans, self._classes, self.received, self._lines = list(plans), classes, [], []
        self.goes_on, self.begins = threading.Event(), threading.Event()
        self.goes_on.set()
        self._listener = socket.socket(socket.AF_UNIX)
        self._listener.bind(self.place)
        self._listener.listen()
        self._threads = [threading.Thread(target=self._accept)]
        self._threads[0].start()

    def __enter__(self):
        return self

    def __exit__(self, *_):
        self.goes_on.set()
        self._listener.shutdown(socket.SHUT_RDWR)
        self._threads[0].join()
        self.end_connections()
        for it in self._threads:
            it.join()
        self._listener.close()
        self._folder.cleanup()

    def end_connections(self):
        """Ends all connections, as a server that ends does."""
        for line in self._lines:
            try:
                line.shutdown(socket.SHUT_RDWR)
            except OSError:
                pass

    def _accept(self):
        while True:
            try:
                line, _ = self._listener.accept()
            except OSError:
                return
            plan = self._plans.pop(0) if self._plans else None
            if plan == CLOSED:
                line.close()
                continue
            self._lines.append(line)
            self.received.append([])
            words = (line, plan, self.received[-1])
            if plan != DEAF:
                self._threads.append(threading.Thread(target=self._serve, args=words))
                self._threads[-1].start()

    def _serve(self, line, last, received):
        with line, line.makefile("rb") as read:
            server, rounds, out = Server(self._classes, False), 0, []
            while head := read.read(4):
                text = read.read(int.from_bytes(head, "big"))
                if text != b"\x08":
                    received.append(text)
                    told = server.reply(text)
                    out.append(len(told).to_bytes(4, "big") + told)
                    continue
                rounds, server.jobs = rounds + 1, 0
                self.begins.set()
                if rounds == last:
                    return
                self.goes_on.wait()
                try:
                    line.sendall(b"".join(out) + b"\0\0\0\1\x09")
                except OSError:
                    return
                out.clear()

    def kinds(self):
        """Returns the kinds of the requests of each connection."""
        return [[text[0] for text in texts] for texts in self.received]
