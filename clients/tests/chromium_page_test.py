#!/usr/bin/env python3
"""chromium_page_test: what the operator's page says and shows, at three widths, in light and dark mode, and in several tabs. running.py has
the requirements. Pictures are written to the folder of chromium_test."""
import os
import signal
import socket
import threading
import time
import unittest

from chromium_test import Browser
from class_files import another
from frames import DONE, END, ENDED, get, invoke, put, value
from packages import need
from running import PATIENCE, STAND_IN, FrontTest, Running, take

WIDTHS = (360, 1_280, 1_920)
SAYS = "return document.getElementById('says').textContent"
# The elements with text that aren't wholly within the window's width, or within an element that cuts them off.
HIDDEN = """
const hidden = [];
for (const it of document.querySelectorAll('main td, main dd, main dt, figcaption, p, h2, caption')) {
  const box = it.getBoundingClientRect();
  const isCut = it.scrollWidth > it.clientWidth + 1 && getComputedStyle(it).display !== 'inline';
  if (it.textContent && (box.left < -1 || box.right > innerWidth + 1 || isCut)) hidden.push(it.textContent);
}
for (const it of document.querySelectorAll('.scroll')) if (it.scrollWidth > it.clientWidth + 1) hidden.push(it.id || it.className);
return hidden"""


class WhatThePageShows(FrontTest):
    def setUp(self):
        need(chromium="chromium", chromedriver="chromium-driver")

    def front(self, *options):
        server = STAND_IN + ["--pace", "1e-8"]
        return Running("--http", "0", "--stall", "2", *options, server=server)

    def go(self, browser, front):
        browser.go("http://{}:{}/".format(*front.http_address()))
        browser.wait_for("return document.getElementById('about').textContent !== ''")

    def looks(self, browser, state):
        """Takes a picture of each width in light and dark mode, and checks that nothing is out of sight."""
        for width in WIDTHS:
            browser.devtools(
                "Emulation.setDeviceMetricsOverride", width=width, height=900, deviceScaleFactor=1, mobile=False
            )
            for scheme in ("light", "dark"):
                features = [{"name": "prefers-color-scheme", "value": scheme}]
                browser.devtools("Emulation.setEmulatedMedia", features=features)
                with self.subTest(state=state, width=width, scheme=scheme):
                    self.assertEqual(browser.run(HIDDEN), [])
                    self.assertGreater(browser.picture(f"page-{state}-{width}-{scheme}"), 10_000)
        browser.devtools("Emulation.clearDeviceMetricsOverride")

    def load(self, line, rounds, key=1):
        for n in range(rounds):
            self.ask(line, put(key, n) + END, DONE + ENDED)
            line.sendall(5 * invoke(0, key) + END)
            take(line, 5 * 15 + 5)

    def load_until(self, is_done, front):
        """Makes calls on a connection of its own until `is_done` is set."""
        with front.open() as line:
            self.define(line, another(2_400), 0)
            while not is_done.is_set():
                self.load(line, 1, key=2)
                time.sleep(0.02)

    def looks_under_load(self, browser, front):
        is_done = threading.Event()
        caller = threading.Thread(target=self.load_until, args=(is_done, front))
        caller.start()
        try:
            browser.wait_for("return Number(document.getElementById('v-calls').textContent) > 0")
            self.looks(browser, "load")
            self.assertGreater(browser.run("return Number(document.getElementById('v-calls').textContent)"), 0)
        finally:
            is_done.set()
            caller.join(PATIENCE)

    def test_empty_under_load_stalled_and_ended(self):
        with self.front() as front, front.open() as a, Browser() as browser:
            self.go(browser, front)
            browser.wait_for("return document.getElementById('says').textContent === 'The server runs.'")
            about = browser.run("return document.getElementById('about').textContent")
            for word in (socket.gethostname(), str(front.process.pid), front.place, "fake_server.py", "since "):
                self.assertIn(word, about)
            classes = browser.run("return document.getElementById('c-classes').textContent")
            self.assertEqual(classes, "None but 7 built-in processors of clients, which haven't run.")
            self.looks(browser, "empty")
            self.define(a, another(2_400), 0)
            for _ in range(3):
                self.load(a, 20)
                time.sleep(1)
            browser.wait_for("return document.querySelectorAll('#classes tr').length === 1")
            (row,) = browser.run("return [...document.querySelectorAll('#classes tr')].map((it) => it.innerText)")
            self.assertIn("Row2400", row)
            classes = browser.run("return document.getElementById('c-classes').textContent")
            self.assertTrue(classes.startswith("1 of 8, by the steps of all runs."), classes)
            rate = "[data-metric=jentry_requests_total] .rate"
            self.assertRegex(browser.wait_for(f"return document.querySelector('{rate}').textContent"), r"^[\d.,]+K?/s$")
            limits = browser.run("return document.getElementById('limits').innerText")
            self.assertRegex(limits, r"--define-bytes\s+65,536 B/s\s+--drain\s+5 s\s")
            lines = browser.run("return document.querySelectorAll('#p-time line').length")
            self.assertGreater(lines, 2, "the axis of times has no powers of ten")
            self.looks_under_load(browser, front)
            os.kill(front.server(), signal.SIGSTOP)
            a.sendall(get(1) + END)
            browser.wait_for("return document.getElementById('state').className === 'bad'")
            self.assertRegex(browser.run(SAYS), r"^Stalled: the server hasn't answered a batch for \d+ seconds")
            self.assertTrue(browser.run("return document.title").startswith("Stalled"))
            waits = browser.wait_for("return document.querySelector('#connections td.slow')?.textContent")
            self.assertRegex(waits, r"^[\d.]+ s$")
            self.looks(browser, "stalled")
            os.kill(front.server(), signal.SIGCONT)
            self.told(a, value(19 + 5) + ENDED)
            browser.wait_for("return document.getElementById('says').textContent === 'The server runs.'")
            os.kill(front.server(), signal.SIGKILL)
            browser.wait_for("return document.title.startsWith('Ended')")
            memory = "return Number(document.querySelector('[data-metric=jentry_server_resident_memory_bytes]').dataset.value)"
            self.assertGreater(browser.run(memory), 1_000_000, "the server's last memory")
            self.looks(browser, "ended")
            self.assertEqual(browser.log("browser"), [])

    def test_an_eighth_tab_shows_the_values_too(self):
        """A browser has six connections to a server, and one page receives the events for all."""
        with self.front() as front, Browser() as browser:
            for _ in range(8):
                browser.ask("/window", {"handle": browser.ask("/window/new", {"type": "tab"})["handle"]})
                self.go(browser, front)
                self.assertEqual(browser.run(SAYS), "The server runs.")
            self.assertLessEqual(self.streams(front), 2)
            first = browser.ask("/window/handles", method="GET")
            browser.ask("/window", {"handle": first[1]})
            browser.ask("/window", method="DELETE")
            browser.ask("/window", {"handle": first[-1]})
            before = browser.run("return last.now")
            browser.wait_for(f"return last.now > {before + 2}")

    def streams(self, front):
        """Returns the number of TCP connections at the front's HTTP server."""
        port = f":{front.http_address()[1]:04X}"
        with open("/proc/net/tcp", encoding="utf-8") as table:
            rows = [line.split() for line in table.readlines()[1:]]
        return len([row for row in rows if row[1].endswith(port) and row[3] == "01"])

    def test_a_page_too_many_says_so(self):
        with self.front() as front, Browser() as browser:
            lines = [socket.create_connection(front.http_address(), PATIENCE) for _ in range(16)]
            for line in lines:
                self.addCleanup(line.close)
                line.sendall(b"GET /events HTTP/1.1\r\nHost: a\r\n\r\n")
                line.recv(65_536)
            browser.go("http://{}:{}/".format(*front.http_address()))
            says = browser.wait_for(SAYS + ".startsWith('The front runs, but 16 other pages')")
            self.assertTrue(says)
            self.assertEqual(browser.run("return document.getElementById('state').className"), "")


if __name__ == "__main__":
    unittest.main()
