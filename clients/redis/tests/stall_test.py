"""Measures the longest time that a class at `max-steps`, or a file that is too large, delays other clients."""
import os
import sys
import threading
import time

from module_test import ModuleTest
from servers import HERE, Server

sys.path.append(os.path.join(HERE, "../../tests"))
import class_files  # noqa: E402  (it is one of the clients' other tests)

RUNS = int(os.environ.get("JENTRY_RUNS", 50))
LARGE = 64 << 20
"""The bytes of a file that is too large."""
PATIENCE_OF_A_RUN = 10
"""Seconds that one run may take on a slow machine; what it takes is printed."""


class Stall(ModuleTest):
    def test_other_clients_wait_for_one_run_at_most(self):
        heavy = class_files.heavy()
        with Server() as server, server.open() as line, server.open() as other:
            steps = int(str(line.ask("JENTRY.DEFINE", heavy)).split()[2].rstrip(","))
            self.assertGreater(steps, 200_000)
            line.get("CONFIG", "SET", "jentry.max-steps", steps)
            told = line.get("JENTRY.DEFINE", heavy)
            self.assertEqual(told[1], steps)
            waits = []
            ends = threading.Event()

            def ping():
                while not ends.is_set():
                    begun = time.monotonic()
                    other.get("PING")
                    waits.append(time.monotonic() - begun)

            thread = threading.Thread(target=ping)
            thread.start()
            runs = []
            taken = server.processor_seconds()
            for _ in range(RUNS):
                begun = time.monotonic()
                line.get("JENTRY.INVOKE", told[0], "v:1")
                runs.append(time.monotonic() - begun)
            taken = server.processor_seconds() - taken
            ends.set()
            thread.join()
            print(
                f"a class of {steps} steps: a run takes {sorted(runs)[len(runs) // 2] * 1000:.2f} ms, and {taken / RUNS * 1000:.2f} ms of a processor "
                f"with the other client's requests; that one waits {max(waits) * 1000:.2f} ms at most",
                flush=True,
            )
            self.assertEqual(len(runs), RUNS)
            self.assertLess(max(waits), PATIENCE_OF_A_RUN)


class LargeFile(ModuleTest):
    def test_a_file_that_is_too_large_costs_no_more_than_its_transfer(self):
        large = b"\xca\xfe\xba\xbe" + bytes(LARGE)
        with Server() as server, server.open() as line:

            def seconds(*words):
                """Returns the CPU seconds of a command, and its reply."""
                before = server.processor_seconds()
                told = line.ask(*words)
                return server.processor_seconds() - before, told

            transfer = max(seconds("EXISTS", large)[0] for _ in range(3))
            for name, begin in (("DEFINE", "REFUSED 1 TooLarge"), ("EXPLAIN", "refused 1 TooLarge")):
                taken, told = min(seconds("JENTRY." + name, large) for _ in range(3))
                print(
                    f"{name} of {LARGE >> 20} MB: {taken * 1000:.0f} ms of a processor, its transfer {transfer * 1000:.0f}"
                )
                self.assertEqual((told.decode() if isinstance(told, bytes) else str(told))[: len(begin)], begin)
                self.assertLess(taken, 2 * transfer + 0.02)
            self.assertEqual(line.get("JENTRY.LIST"), [])
