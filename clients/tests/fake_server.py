#!/usr/bin/env python3
"""fake_server: speaks the protocol of `jentry serve` without running classes, for tests of clients where the program isn't built, and of
clients whose server fails. It accepts every class that begins like a class file, and each class adds one to its entry.

    fake_server.py [--die N] [--wrong N] [--short N] [--other N] [--huge N] [--empty N] [--slow SECONDS]
                   [--classes N] [--pace SECONDS] [--throw NUMBER:INDEX] [--pipe BYTES]

--die N exits in round N, before the replies to that round; --wrong N sends one reply too many in round N; --short N leaves out the last
reply of round N. The other options replace that reply: --other N by one of an unknown kind, --huge N by a frame of 1 MB, --empty N by a
frame of length 0. Rounds that only define classes don't count. With --slow each round takes SECONDS. With --classes the server denies each
class after N. With --pace each instruction takes SECONDS, and a class RowN (class_files.another) has 100 * N of them.
With --throw each run on a key without an entry ends by the exception NUMBER that the class throws itself, whose text is its constant INDEX.
With --pipe its input's pipe holds BYTES, at least 4,096, after the first round.
"""
import argparse
import fcntl
import re
import struct
import sys
import time

MOST_JOBS = 4_096
F_SETPIPE_SZ = 1_031  # fcntl has the name since Python 3.10
OTHER = b"\0\0\0\1\x4d"
HUGE = struct.pack(">I", 1 << 20) + bytes(1 << 20)
EMPTY = bytes(4)


def long(it):
    return b"\0" if it is None else b"\1" + struct.pack(">q", it)


class Server:
    """The entries of a cache, and the replies to the requests of a round."""

    def __init__(self, most_classes, has_pace, throws=None):
        self.entries, self.steps, self.jobs, self.most_classes = {}, [], 0, most_classes
        self.spent, self.has_pace = 0, has_pace
        self.threw = b"\1\3" if throws is None else struct.pack(">BBH", 3, *map(int, throws.split(":")))

    def plus(self, key):
        if key not in self.entries:
            return self.threw
        self.entries[key] += 1
        return b"\0" + long(self.entries[key])

    def reply(self, text):
        """Returns the reply to a request, or None for an unknown kind of request."""
        kind = text[0]
        if kind == 1:
            return self.define(text)
        if kind in (6, 7) and struct.unpack_from(">I", text, 1)[0] >= len(self.steps):
            return b"\x08\1"
        if kind == 7:
            return self.invoke_all(text)
        self.jobs += 1
        if self.jobs > MOST_JOBS:
            return b"\x08\5"
        if kind == 6:
            number, key = struct.unpack_from(">Iq", text, 1)
            self.spent += self.steps[number]
            return b"\6" + self.plus(key)
        return self.plain(kind, text)

    def define(self, text):
        if not text.startswith(b"\1\xca\xfe\xba\xbe"):
            return struct.pack(">BBI", 2, 3, 0)
        if len(self.steps) == self.most_classes:
            return b"\x08\4"
        costly = re.search(rb"\x01\x00\x07Row(\d{4})", text)
        self.steps.append(100 * int(costly[1]) if costly and self.has_pace else 14)
        return struct.pack(">BIII", 1, len(self.steps) - 1, self.steps[-1], 0)

    def plain(self, kind, text):
        (key,) = struct.unpack_from(">q", text, 1)
        if kind == 2:
            (self.entries[key],) = struct.unpack_from(">q", text, 9)
            return b"\3"
        if kind == 3:
            return b"\4" + long(self.entries.get(key))
        if kind == 4:
            return b"\5" + bytes([self.entries.pop(key, None) is not None])
        return b"\5" + bytes([key in self.entries]) if kind == 5 else None

    def invoke_all(self, text):
        (count,) = struct.unpack_from(">H", text, 5)
        keys = dict.fromkeys(struct.unpack_from(f">{count}q", text, 7))
        if self.jobs + len(keys) > MOST_JOBS:
            return b"\x08\5"
        self.jobs += len(keys)
        return struct.pack(">BH", 7, len(keys)) + b"".join(struct.pack(">q", key) + self.plus(key) for key in keys)


def end(words):
    sys.stderr.write(words + "\n")
    sys.exit(3)


def serve(options, read, write):
    server, rounds, out, is_counted = Server(options.classes, options.pace > 0, options.throw), 0, [], False
    while head := read.read(4):
        text = read.read(int.from_bytes(head, "big"))
        if text != b"\x08":
            is_counted = is_counted or text[0] != 1
            told = server.reply(text)
            if told is None:
                end("serve fault 3 Malformed")
            out.append(len(told).to_bytes(4, "big") + told)
            continue
        if options.pipe:
            fcntl.fcntl(read, F_SETPIPE_SZ, options.pipe)
        rounds, server.jobs, is_counted = rounds + is_counted, 0, False
        time.sleep(options.slow + options.pace * server.spent)
        server.spent = 0
        if rounds == options.die:
            end("serve fault 5 NoMemory")
        if rounds == options.wrong:
            out.append(b"\0\0\0\1\3")
        if rounds == options.short:
            out.pop()
        for at, reply in ((options.other, OTHER), (options.huge, HUGE), (options.empty, EMPTY)):
            if rounds == at:
                out[-1] = reply
        write.write(b"".join(out) + b"\0\0\0\1\x09")
        write.flush()
        out.clear()


if __name__ == "__main__":
    parser = argparse.ArgumentParser()
    for name in ("--die", "--wrong", "--short", "--other", "--huge", "--empty"):
        parser.add_argument(name, type=int, default=-1)
    parser.add_argument("--slow", type=float, default=0)
    parser.add_argument("--pace", type=float, default=0)
    parser.add_argument("--classes", type=int, default=4_096)
    parser.add_argument("--pipe", type=int, default=0)
    parser.add_argument("--throw", metavar="NUMBER:INDEX")
    try:
        serve(parser.parse_args(), sys.stdin.buffer, sys.stdout.buffer)
    except (BrokenPipeError, KeyboardInterrupt):
        sys.exit(3)
