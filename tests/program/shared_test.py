"""Rounds that the built program distributes among threads. A legal order of the calls on each key is searched for the replies, and the program's
threads are counted meanwhile."""
import os
import random
import struct
import subprocess
import tempfile
import time
from collections import namedtuple

import row_classes as rows
from running import LIMIT, Row, Runs

ROUND_END = bytes([0, 0, 0, 1, 8])
JOBS, ROUNDS, KEYS = 48, 150, 24
"""The number of requests in a round, of rounds in a stream, and of keys."""
TRIES = 10
"""How often threads are looked for that a busy machine may hide."""

Call = namedtuple("Call", "kind key number")
"""A call on a key: its kind, and the number that it puts or adds."""
Request = namedtuple("Request", "kind keys number")
"""The same for a request, which has several keys if it is an `invokeAll`."""

PUT, GET, REMOVE, CONTAINS, INVOKE, INVOKE_ALL = range(2, 8)


def frame_of(request):
    """Returns the frame of a request. Invocations are of class 0, with one argument."""
    keys = b"".join(struct.pack(">q", key) for key in request.keys)
    body = {
        PUT: keys + struct.pack(">q", request.number),
        INVOKE: bytes(4) + keys + b"\1\1" + struct.pack(">q", request.number),
        INVOKE_ALL: bytes(4)
        + struct.pack(">H", len(request.keys))
        + keys
        + b"\1\1"
        + struct.pack(">q", request.number),
    }.get(request.kind, keys)
    return struct.pack(">IB", 1 + len(body), request.kind) + body


def any_request(chance):
    """Returns a random request. Half of them invoke the class on one key; the others invoke it on several keys, put, get, remove, or test for an
    entry."""
    kind = chance.choice([INVOKE] * 6 + [INVOKE_ALL, PUT, PUT, GET, REMOVE, CONTAINS])
    keys = chance.sample(range(KEYS), 4 if kind == INVOKE_ALL else 1)
    return Request(kind, keys, chance.randrange(1, 1000))


class Replies:
    """Replies that are read in order."""

    def __init__(self, data):
        self.data, self.at = data, 0

    def next(self):
        """Returns the kind and the body of the next reply."""
        (length,) = struct.unpack_from(">I", self.data, self.at)
        body = self.data[self.at + 4 : self.at + 4 + length]
        if not 0 < length == len(body):
            raise ValueError(f"no whole reply at {self.at}")
        self.at += 4 + length
        return body[0], body[1:]


def number_in(argument):
    """Returns the number in an argument, or None for null."""
    if argument == b"\0":
        return None
    tag, number = struct.unpack(">Bq", argument)
    if tag != 1:
        raise ValueError(f"no Long: {argument}")
    return number


def answers_in(request, kind, body):
    """Returns the calls of a request, each with its result in the reply."""
    calls = [Call(INVOKE if request.kind == INVOKE_ALL else request.kind, key, request.number) for key in request.keys]
    if kind != {PUT: 3, GET: 4, REMOVE: 5, CONTAINS: 5, INVOKE: 6, INVOKE_ALL: 7}[request.kind]:
        raise ValueError(f"a reply of the kind {kind} to {request}")
    if request.kind == PUT:
        return [(calls[0], None)]
    if request.kind == GET:
        return [(calls[0], number_in(body))]
    if request.kind in (REMOVE, CONTAINS):
        return [(calls[0], bool(body[0]))]
    if request.kind == INVOKE:
        return [(calls[0], number_in(body[1:]))]
    # The body is a count, and for each key its number, a 0 and the result as a Long.
    if body[:2] != struct.pack(">H", len(calls)) or len(body) != 2 + 18 * len(calls):
        raise ValueError(f"no results of {request}: {body}")
    parts = [body[at : at + 18] for at in range(2, len(body), 18)]
    if any(part[:9] != struct.pack(">qB", call.key, 0) for call, part in zip(calls, parts)):
        raise ValueError(f"results of other keys than {request}: {body}")
    return [(call, number_in(part[9:])) for call, part in zip(calls, parts)]


def after(call, answer, entry):
    """Returns a list with the entry that a call leaves, given its result and the entry before; an empty list if it can't have this result."""
    if call.kind == PUT:
        return [call.number]
    if call.kind == GET:
        return [entry] if answer == entry else []
    if call.kind == CONTAINS:
        return [entry] if answer == (entry is not None) else []
    if call.kind == REMOVE:
        return [None] if answer == (entry is not None) else []
    counted = (entry or 0) + call.number
    return [counted] if answer == counted else []


def left_by(calls, entries):
    """Returns the entries that these calls with their results may leave, in any order, on a key with one of these entries."""
    reached = {(frozenset(range(len(calls))), entry) for entry in entries}
    for _ in calls:
        reached = {
            (left - {at}, entry) for left, before in reached for at in left for entry in after(*calls[at], before)
        }
    return {entry for _left, entry in reached}


def illegal_keys(rounds, replies):
    """Returns the keys and the rounds, from 0, for which no order of the calls gives their results."""
    entries, illegal = {key: {None} for key in range(KEYS)}, []
    for number, requests in enumerate(rounds):
        of_key = {key: [] for key in range(KEYS)}
        for request in requests:
            for call, answer in answers_in(request, *replies.next()):
                of_key[call.key].append((call, answer))
        if replies.next() != (9, b""):
            raise ValueError("no end of a round")
        for key, calls in of_key.items():
            entries[key] = left_by(calls, entries[key])
            if not entries[key]:
                illegal.append((key, number))
                entries[key] = {None}
    return illegal


def threads_of(process):
    """Returns the number of threads of a process, 0 if it has ended."""
    try:
        return len(os.listdir(f"/proc/{process}/task"))
    except OSError:
        return 0


class Shared(Runs):
    variable = "JENTRY_PROGRAM"

    def served(self, given, words):
        """Serves a stream. Returns the output, and the highest number of threads that was seen meanwhile."""
        with tempfile.TemporaryFile() as source, tempfile.TemporaryFile() as output:
            source.write(given)
            source.seek(0)
            with subprocess.Popen([self.program, "serve", *words], stdin=source, stdout=output) as it:
                most, end = 0, time.monotonic() + LIMIT
                while it.poll() is None and time.monotonic() < end:
                    most = max(most, threads_of(it.pid))
                    time.sleep(0.0002)
                it.kill()
            self.assertEqual(it.returncode, 0, words)
            output.seek(0)
            return output.read(), most

    def test_the_class_states_more_than_it_runs(self):
        counter = rows.costly_counter()
        self.hold(
            [
                Row(["check", "C"], 0, "accepted steps=900000 words=0 slots=11 depth=19\n", file=counter),
                Row(["run", "C", "7", "41", "1"], 0, "result 42\nvalue 42\nsteps 26 words 0\n", file=counter),
                Row(["run", "C", "7", "none", "1"], 0, "result 1\nvalue 1\nsteps 22 words 0\n", file=counter),
            ]
        )

    def test_replies_of_shared_rounds_have_a_legal_order(self):
        """With two workers or more there is another thread, which waits for them; a single worker is the only thread."""
        counter = rows.costly_counter()
        define = struct.pack(">IB", 1 + len(counter), 1) + counter + ROUND_END
        for workers, stripes in [(1, 4), (2, 2), (4, 4), (16, 4), (16, 16)]:
            with self.subTest(workers=workers, stripes=stripes):
                chance = random.Random(100 * workers + stripes)
                rounds = [[any_request(chance) for _ in range(JOBS)] for _ in range(ROUNDS)]
                given = define + b"".join(b"".join(map(frame_of, requests)) + ROUND_END for requests in rounds)
                words = ["--workers", str(workers), "--stripes", str(stripes)]
                output, threads = self.served(given, words)
                # Where this process waited for a processor while the threads ran, it looks again.
                for _ in range(TRIES if workers > 1 else 0):
                    threads = threads if threads > 2 else self.served(given, words)[1]
                self.assertEqual(output[:22], bytes.fromhex("0000000d0100000000000dbba000000000" "0000000109"))
                self.assertTrue(threads < 2 if workers == 1 else threads > 2, f"{threads} threads")
                replies = Replies(output[22:])
                self.assertEqual(illegal_keys(rounds, replies), [])
                self.assertEqual(22 + replies.at, len(output))
