"""started: a front that a benchmark starts, with its own server, and the processor time that the front takes."""
import os
import subprocess
import time

START_LIMIT = 10
"""Seconds within which a front has to listen."""


class Started:
    """A front that listens on a unix socket."""

    def __init__(self, front, program, path):
        self.path = path
        words = [front, "--unix", path, program, "serve"]
        self.process = subprocess.Popen(words, stdout=subprocess.DEVNULL, stderr=subprocess.DEVNULL)
        end = time.monotonic() + START_LIMIT
        while not os.path.exists(path):
            if self.process.poll() is not None or time.monotonic() > end:
                raise SystemExit(f"{front} doesn't listen")
            time.sleep(0.02)

    def processor_seconds(self):
        """Returns the processor time of the front's threads so far, without its server's."""
        tasks = f"/proc/{self.process.pid}/task"
        nanoseconds = 0
        for task in os.listdir(tasks):
            with open(f"{tasks}/{task}/schedstat", encoding="utf-8") as it:
                nanoseconds += int(it.read().split()[0])
        return nanoseconds / 1e9

    def end(self):
        self.process.kill()
        self.process.wait()
