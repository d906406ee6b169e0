"""Redis servers with the module on their own ports, and a connection that speaks RESP.

JENTRY_REDIS_MODULE names the built module, and JENTRY_PROGRAM the built `jentry`, if there is one. JENTRY_REDIS_SERVER is the server to be tested, by
default redis-server. JENTRY_PRELOAD is a library to preload into the servers, such as the runtime of the address sanitizer with which the module
was built.
"""
import glob
import importlib
import os
import random
import shutil
import socket
import subprocess
import sys
import tempfile
import time

HERE = os.path.dirname(os.path.abspath(__file__))
EXAMPLES = os.path.join(HERE, "../../../examples")
MODULE = os.environ.get("JENTRY_REDIS_MODULE")
PROGRAM = os.environ.get("JENTRY_PROGRAM")
REDIS = shutil.which(os.environ.get("JENTRY_REDIS_SERVER", "redis-server"))
PRELOAD = os.environ.get("JENTRY_PRELOAD")
PRELOADED = {"LD_PRELOAD": PRELOAD, "ASAN_OPTIONS": "detect_leaks=0:abort_on_error=1"} if PRELOAD else {}
"""Redis itself doesn't free all at its end."""
PATIENCE = 120
PORTS = range(10_000, 22_000)
BUS = 10_000
"""A node's cluster bus listens on its port and this. Both are below those that Linux gives to outgoing connections, from 32,768 on."""
TRIES = 5
"""How many ports are tried, since another program may take one before the server does."""


class ReplyError(Exception):
    """An error reply of a server."""


def is_free(port):
    with socket.socket() as tried:
        try:
            tried.bind(("127.0.0.1", port))
        except OSError:
            return False
    return True


def free_port():
    """Returns a free port such that the port of its cluster bus is free too."""
    for _ in range(1000):
        port = random.choice(PORTS)
        if is_free(port) and is_free(port + BUS):
            return port
    raise OSError("there is no free port")


def bytes_of(word):
    return word if isinstance(word, bytes) else str(word).encode()


class Connection:
    """A connection to a server. Texts are bytes; `ask` returns an error reply as a ReplyError and doesn't raise it."""

    def __init__(self, port):
        self.port = port
        self.line = socket.create_connection(("127.0.0.1", port), PATIENCE)
        self.line.setsockopt(socket.IPPROTO_TCP, socket.TCP_NODELAY, 1)
        self.file = self.line.makefile("rb")

    def __enter__(self):
        return self

    def __exit__(self, *_):
        self.close()

    def close(self):
        self.file.close()
        self.line.close()

    def send(self, *words):
        words = [bytes_of(word) for word in words]
        self.line.sendall(b"*%d\r\n" % len(words) + b"".join(b"$%d\r\n%s\r\n" % (len(word), word) for word in words))

    def take(self):
        """Reads and returns the next reply."""
        head = self.file.readline()
        if not head.endswith(b"\r\n"):
            raise EOFError("the server closed the connection")
        kind, rest = head[:1], head[1:-2]
        if kind == b"-":
            return ReplyError(rest.decode())
        if kind == b"+":
            return rest
        if kind == b":":
            return int(rest)
        count = int(rest)
        if count < 0:
            return None
        if kind == b"*":
            return [self.take() for _ in range(count)]
        text = self.file.read(count + 2)
        if len(text) != count + 2:
            raise EOFError("the server closed the connection")
        return text[:-2]

    def ask(self, *words):
        self.send(*words)
        return self.take()

    def get(self, *words):
        """Sends a command like `ask`, but raises an error reply."""
        told = self.ask(*words)
        if isinstance(told, ReplyError):
            raise told
        return told

    def info(self, section):
        """Returns the fields of a section of INFO."""
        lines = self.get("INFO", section).decode().splitlines()
        return dict(line.split(":", 1) for line in lines if ":" in line)

    def calls(self, command):
        """Returns how often the server has run a command."""
        return int(self.info("commandstats").get("cmdstat_" + command, "calls=0").split(",")[0].split("=")[1])


class Server:
    """A redis-server with the module. Leaving the `with` statement ends it and deletes its folder."""

    def __init__(self, *options, module=True, arguments=(), variables=None):
        self.options, self.module, self.arguments = options, module, arguments
        self.variables = {**os.environ, **PRELOADED, **(variables or {})}
        self.folder = tempfile.mkdtemp(prefix="jentry-redis-")
        self.process = None
        try:
            self.start_anywhere()
        except BaseException:
            self.__exit__()
            raise

    def start_anywhere(self):
        """Starts the server on a free port."""
        for left in reversed(range(TRIES)):
            self.port = free_port()
            try:
                return self.start()
            except RuntimeError as error:
                if not left or "Address already in use" not in str(error):
                    raise

    def start(self):
        """Starts the server, or restarts it with its files."""
        words = [
            REDIS,
            "--port",
            str(self.port),
            "--bind",
            "127.0.0.1",
            "--dir",
            self.folder,
            "--save",
            "",
            "--repl-diskless-sync-delay",
            "0",
        ]
        words += [str(option) for option in self.options]
        words += ["--loadmodule", MODULE, *map(str, self.arguments)] if self.module else []
        with open(self.log_path(), "ab") as log:
            self.process = subprocess.Popen(
                words, stdin=subprocess.DEVNULL, stdout=log, stderr=subprocess.STDOUT, env=self.variables
            )
        wait_for(self.is_up, "the server's start", lambda: self.log()[-2000:])

    def is_up(self):
        if self.process.poll() is not None:
            raise RuntimeError("the server has ended:\n" + self.log()[-2000:])
        try:
            with self.open() as line:
                # Another program may have a server on this port.
                return line.ask("PING") == b"PONG" and line.info("server")["process_id"] == str(self.process.pid)
        except (OSError, EOFError, ReplyError):
            return False

    def log_path(self):
        return os.path.join(self.folder, "log")

    def log(self):
        with open(self.log_path(), encoding="utf-8", errors="replace") as log:
            return log.read()

    def open(self):
        return Connection(self.port)

    def logged(self, line, *words):
        """Runs a command, and returns its reply and the commands that it wrote to the AOF. The server must write these before it replies, as with
        `--appendfsync always`."""
        [path] = glob.glob(os.path.join(self.folder, "appendonlydir", "*.incr.aof"))
        before = os.path.getsize(path)
        told = line.get(*words)
        with open(path, "rb") as file:
            file.seek(before)
            lines = file.read().split(b"\r\n")
        # A command is the number of its arguments, then the length and the bytes of each.
        heads = [place for place, text in enumerate(lines) if text.startswith(b"*")]
        return told, [lines[head + 2 : head + 2 + 2 * int(lines[head][1:]) : 2] for head in heads]

    def processor_seconds(self):
        """Returns the CPU seconds of the main thread so far, which runs all commands."""
        with open(f"/proc/{self.process.pid}/task/{self.process.pid}/schedstat", encoding="ascii") as file:
            return int(file.read().split()[0]) / 1e9

    def end(self, by="terminate"):
        """Ends the server: with a signal that it handles, or with `kill`."""
        if self.process and self.process.poll() is None:
            getattr(self.process, by)()
            self.process.wait(PATIENCE)

    def restart(self, by="terminate"):
        self.end(by)
        self.start()

    def __enter__(self):
        return self

    def __exit__(self, *_):
        self.end("kill")
        shutil.rmtree(self.folder, ignore_errors=True)


def wait_for(holds, what, more=lambda: "", seconds=PATIENCE):
    """Waits until a condition holds; raises TimeoutError after `seconds`."""
    until = time.monotonic() + seconds
    while not holds():
        if time.monotonic() > until:
            raise TimeoutError(f"waited {seconds} s for {what}\n{more()}")
        time.sleep(0.05)


def path_of(name):
    """Returns the path of the class file of an example, or of a refused one (`refused/NAME`)."""
    return os.path.join(EXAMPLES, name + ".class")


def class_file(name):
    """Returns the class file of an example, or of a refused one."""
    with open(path_of(name), "rb") as file:
        return file.read()


def row_classes():
    """Returns the Python module that generates the classes of the program's tests."""
    folder = os.path.join(HERE, "../../../tests/program")
    if folder not in sys.path:
        sys.path.append(folder)
    return importlib.import_module("row_classes")


def examples(folder=""):
    """Returns the names of all examples of a folder."""
    names = sorted(os.listdir(os.path.join(EXAMPLES, folder)))
    return [os.path.join(folder, name[:-6]) for name in names if name.endswith(".class")]


def program(*words):
    """Runs `jentry` with these arguments, and returns its output."""
    done = subprocess.run(
        [PROGRAM, *map(str, words)], stdout=subprocess.PIPE, stderr=subprocess.STDOUT, text=True, timeout=PATIENCE
    )
    return done.stdout
