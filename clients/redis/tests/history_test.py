"""Tests a random history of plain commands and runs, by several clients on few keys: the calls on each key must be linearizable."""
import os
import random
import threading
import time

from commands_test import OneServer

CLIENTS, KEYS, EACH = 8, 4, int(os.environ.get("JENTRY_HISTORY", 250))


class Call:
    """A call on a key: its command, its start and end time, and its reply."""

    def __init__(self, kind, argument):
        self.kind, self.argument, self.begin, self.end, self.told = kind, argument, 0, 0, None

    def after(self, value):
        """Returns the entry and the reply after a call on this value."""
        if self.kind == "GET":
            return value, None if value is None else b"%d" % value
        if self.kind == "SET":
            return self.argument, b"OK"
        if self.kind == "DEL":
            return None, 0 if value is None else 1
        if self.kind == "COMPARE":
            return (self.argument + 1, 1) if value == self.argument else (value, 0)
        now = (value or 0) + (1 if self.kind == "INCR" else self.argument)
        return now, now

    def __repr__(self):
        return f"{self.kind} {self.argument} -> {self.told} [{self.begin:.6f}, {self.end:.6f}]"


def has_order(calls, start=None):
    """Returns whether the calls on one key are linearizable. Each client made one call at a time."""
    by_client = list(calls.values())
    seen = set()
    stack = [((0,) * len(by_client), start)]
    while stack:
        state = stack.pop()
        if state in seen:
            continue
        seen.add(state)
        places, value = state
        heads = [
            (client, calls[place]) for client, (calls, place) in enumerate(zip(by_client, places)) if place < len(calls)
        ]
        if not heads:
            return True
        first_end = min(call.end for _, call in heads)
        for client, call in heads:
            if call.begin <= first_end:
                now, told = call.after(value)
                if told == call.told:
                    stack.append((places[:client] + (places[client] + 1,) + places[client + 1 :], now))
    return False


class History(OneServer):
    def perform(self, call, line, key):
        words = {
            "GET": ("GET", key),
            "SET": ("SET", key, call.argument),
            "DEL": ("DEL", key),
            "INCR": ("INCR", key),
            "ADD": ("JENTRY.INVOKE", self.add, key, call.argument),
            "COMPARE": ("JENTRY.INVOKE", self.cas, key, call.argument, call.argument + 1),
        }[call.kind]
        call.begin = time.monotonic()
        call.told = line.ask(*words)
        call.end = time.monotonic()

    def client(self, number, histories):
        chosen = random.Random(number)
        with self.server.open() as line:
            for _ in range(EACH):
                key = chosen.randrange(KEYS)
                call = Call(
                    chosen.choice(["GET", "SET", "DEL", "INCR", "INCR", "ADD", "ADD", "ADD", "COMPARE"]),
                    chosen.randrange(4),
                )
                self.perform(call, line, f"h:{key}")
                histories[key][number].append(call)

    def test_each_key_has_an_order(self):
        self.cas = self.define(self.line, "CompareAndSet")
        histories = [{number: [] for number in range(CLIENTS)} for _ in range(KEYS)]
        threads = [threading.Thread(target=self.client, args=(number, histories)) for number in range(CLIENTS)]
        for thread in threads:
            thread.start()
        for thread in threads:
            thread.join()
        self.assertEqual(sum(len(calls) for history in histories for calls in history.values()), CLIENTS * EACH)
        for key, history in enumerate(histories):
            self.assertTrue(has_order(history), f"no order for key {key}")

    def test_the_search_finds_what_is_wrong(self):
        def call(kind, argument, begin, end, told):
            made = Call(kind, argument)
            made.begin, made.end, made.told = begin, end, told
            return made

        lost = {0: [call("INCR", 0, 0, 3, 1)], 1: [call("ADD", 1, 1, 2, 1)]}
        self.assertFalse(has_order(lost))
        stale = {0: [call("SET", 5, 0, 1, b"OK")], 1: [call("GET", 0, 2, 3, None)]}
        self.assertFalse(has_order(stale))
        good = {0: [call("SET", 5, 0, 3, b"OK")], 1: [call("GET", 0, 1, 2, None), call("GET", 0, 2, 4, b"5")]}
        self.assertTrue(has_order(good))
