#!/usr/bin/env python3
"""chromium_test: the operator's page in Debian's headless Chromium, under load and after the server's end. running.py has the requirements.

Pictures are written to the folder that JENTRY_OUT names, by default clients/tests/out.
"""
import base64
import json
import os
import signal
import socket
import subprocess
import threading
import time
import unittest
import urllib.request

from class_files import another, plus
from frames import DONE, END, ENDED, define, denied, get, invoke, put
from packages import need
from running import PATIENCE, FrontTest, Running, take

HERE = os.path.dirname(os.path.abspath(__file__))
OUT = os.environ.get("JENTRY_OUT") or os.path.join(HERE, "out")
THREW = b"\0\0\0\3\6\1\3"
TAB = "\ue004"


class Browser:
    """A headless Chromium, controlled by chromedriver over WebDriver."""

    def __init__(self):
        with socket.socket() as it:
            it.bind(("127.0.0.1", 0))
            self.port = it.getsockname()[1]
        self.driver = subprocess.Popen(
            ["chromedriver", f"--port={self.port}"],
            stdin=subprocess.DEVNULL,
            stdout=subprocess.DEVNULL,
            stderr=subprocess.DEVNULL,
        )
        self.session = ""
        options = {
            "args": [
                "--headless=new",
                "--no-sandbox",
                "--disable-gpu",
                "--disable-dev-shm-usage",
                "--window-size=1280,1600",
            ]
        }
        logs = {"browser": "ALL", "performance": "ALL"}
        wanted = {
            "capabilities": {
                "alwaysMatch": {"browserName": "chrome", "goog:chromeOptions": options, "goog:loggingPrefs": logs}
            }
        }
        end = time.monotonic() + PATIENCE
        while True:
            try:
                self.session = "/session/" + self.ask("/session", wanted)["sessionId"]
                return
            except OSError:
                if time.monotonic() > end:
                    raise
                time.sleep(0.2)

    def __enter__(self):
        return self

    def __exit__(self, *_):
        try:
            self.ask("", method="DELETE")
        finally:
            self.driver.terminate()
            self.driver.wait(PATIENCE)

    def ask(self, path, words=None, method="POST"):
        request = urllib.request.Request(
            f"http://127.0.0.1:{self.port}{self.session}{path}",
            method=method,
            data=None if words is None else json.dumps(words).encode(),
            headers={"Content-Type": "application/json"},
        )
        with urllib.request.urlopen(request, timeout=2 * PATIENCE) as answer:
            return json.load(answer)["value"]

    def go(self, url):
        self.ask("/url", {"url": url})

    def run(self, script, *words):
        """Runs a script, and returns what it returns."""
        return self.ask("/execute/sync", {"script": script, "args": list(words)})

    def wait_for(self, script):
        """Waits until a script returns a true value, and returns it."""
        end = time.monotonic() + PATIENCE
        while time.monotonic() < end:
            found = self.run(script)
            if found:
                return found
            time.sleep(0.1)
        raise TimeoutError(script + "\n" + self.run("return document.body.innerText"))

    def devtools(self, command, **words):
        return self.ask("/goog/cdp/execute", {"cmd": command, "params": words})

    def press(self, key):
        keys = [{"type": "keyDown", "value": key}, {"type": "keyUp", "value": key}]
        self.ask("/actions", {"actions": [{"type": "key", "id": "keyboard", "actions": keys}]})

    def log(self, kind):
        return self.ask("/se/log", {"type": kind})

    def picture(self, name):
        """Saves a picture of the whole page, and returns its size in bytes."""
        os.makedirs(OUT, exist_ok=True)
        size = self.run(
            "return [Math.max(innerWidth, document.body.scrollWidth), document.documentElement.scrollHeight]"
        )
        clip = {"x": 0, "y": 0, "width": size[0], "height": size[1], "scale": 1}
        data = self.devtools("Page.captureScreenshot", format="png", captureBeyondViewport=True, clip=clip)["data"]
        with open(os.path.join(OUT, name + ".png"), "wb") as file:
            return file.write(base64.b64decode(data))


class OperatorsPage(FrontTest):
    TOTALS = "return Object.fromEntries([...document.querySelectorAll('#totals dd')].map((it) => [it.dataset.metric, Number(it.dataset.value)]))"
    ROWS = "return [...document.getElementById(arguments[0]).rows].map((row) => [...row.cells].map((it) => it.textContent))"
    TOPS = "return [...document.querySelectorAll('h2, figure, table')].map((it) => it.getBoundingClientRect().top + scrollY)"
    WIDE = "return document.documentElement.scrollWidth > document.documentElement.clientWidth"

    def setUp(self):
        need(chromium="chromium", chromedriver="chromium-driver")

    def load(self, front, going):
        """Makes calls of all kinds until `going` is set."""
        with front.open() as a:
            self.define(a, plus(), 0)
            while not going.is_set():
                self.ask(a, put(1, 1) + put(2, 2) + END, 2 * DONE + ENDED)
                a.sendall(20 * get(1) + 5 * invoke(0, 2) + END)
                take(a, 20 * 14 + 5 * 15 + 5)
                self.ask(a, invoke(0, 99) + invoke(7, 1) + END, THREW + denied(1) + ENDED)

    def sums(self, front):
        """Returns the metrics summed over their labels."""
        sums = {}
        for name, number in front.metrics().items():
            sums[name.split("{")[0]] = sums.get(name.split("{")[0], 0) + number
        return sums

    def compare_numbers(self, browser, front):
        """Checks that the page shows the numbers of /metrics once there are no calls. Returns how many numbers were compared."""
        moving = ("memory", "_cpu_", "counts_age")
        end = time.monotonic() + PATIENCE
        while self.sums(front)["jentry_connections"] > 0 and time.monotonic() < end:
            time.sleep(0.1)
        wanted = {name: value for name, value in self.sums(front).items() if not any(word in name for word in moving)}
        for name in ("jentry_rounds_total", "jentry_connections"):
            browser.wait_for(
                f"return document.querySelector('[data-metric={name}]').dataset.value === '{wanted[name]:.0f}'"
            )
        shown = browser.run(self.TOTALS)
        compared = [name for name in shown if name in wanted]
        self.assertGreaterEqual(len(compared), 18)
        self.assertEqual({name: shown[name] for name in compared}, {name: wanted[name] for name in compared})
        metrics = front.metrics()
        no = {(row[0], row[1]): (row[2], int(row[3].replace(",", ""))) for row in browser.run(self.ROWS, "no")}
        self.assertEqual(
            no,
            {
                ("exception", "3"): ("NullPointerException", metrics['jentry_exceptions_total{number="3"}']),
                ("denial", "1"): ("UnknownClass", metrics['jentry_denials_total{number="1"}']),
            },
        )
        (row,) = browser.run(self.ROWS, "classes")
        runs, threw = metrics["jentry_runs_total"], metrics['jentry_exceptions_total{number="3"}']
        numbers = [int(row[n].replace(",", "")) for n in (0, 3, 4, 6, 7, 8)]
        self.assertEqual(numbers, [7, len(plus()), 14, runs, 14 * runs, threw])
        self.assertEqual(row[1], "Row")
        return len(compared)

    def keyboard(self, browser):
        """Checks that the keyboard reaches each part that scrolls, and each link."""
        reached = set()
        for _ in range(12):
            browser.press(TAB)
            reached.add(
                browser.run(
                    "return (document.activeElement.getAttribute('aria-labelledby') || document.activeElement.tagName)"
                )
            )
        self.assertLessEqual({"A", "h-classes", "h-no", "h-connections"}, reached)

    def looks(self, browser):
        """Takes pictures in light and dark mode, and in a narrow window."""
        backs = []
        for scheme in ("light", "dark"):
            browser.devtools("Emulation.setEmulatedMedia", features=[{"name": "prefers-color-scheme", "value": scheme}])
            backs.append(browser.run("return getComputedStyle(document.body).backgroundColor"))
            self.assertGreater(browser.picture(f"page-{scheme}"), 20_000)
        self.assertEqual(len(set(backs)), 2)
        browser.devtools("Emulation.setDeviceMetricsOverride", width=360, height=800, deviceScaleFactor=1, mobile=False)
        self.assertFalse(browser.run(self.WIDE), "the page is wider than a narrow window")
        browser.picture("page-narrow")
        browser.devtools("Emulation.clearDeviceMetricsOverride")
        browser.devtools("Emulation.setEmulatedMedia", features=[])

    def steady(self, browser):
        """Checks that values change while no element moves, and that rows stay the same nodes."""
        browser.devtools(
            "Emulation.setDeviceMetricsOverride", width=1280, height=500, deviceScaleFactor=1, mobile=False
        )
        browser.run("document.querySelector('#classes tr').dataset.seen = 'yes'; scrollTo(0, 300)")
        before, calls = browser.run(self.TOPS), browser.run(self.TOTALS)["jentry_requests_total"]
        browser.wait_for(
            f"return Number(document.querySelector('[data-metric=jentry_requests_total]').dataset.value) > {calls}"
        )
        time.sleep(2)
        self.assertEqual(browser.run(self.TOPS), before)
        self.assertEqual(
            browser.run("return [document.querySelector('#classes tr').dataset.seen, scrollY]"), ["yes", 300]
        )
        browser.devtools("Emulation.clearDeviceMetricsOverride")

    def only_this_front(self, browser, origin):
        """Checks that all requests went to the front, and that the console is empty."""
        messages = [json.loads(it["message"])["message"] for it in browser.log("performance")]
        urls = {it["params"]["request"]["url"] for it in messages if it["method"] == "Network.requestWillBeSent"}
        self.assertIn(origin + "/events", urls)
        self.assertEqual({url for url in urls if not url.startswith((origin + "/", "data:"))}, set())
        self.assertEqual(browser.log("browser"), [])

    def test_under_load_and_after_the_servers_end(self):
        going = threading.Event()
        with Running("--http", "0") as front, Browser() as browser:
            origin = "http://{}:{}".format(*front.http_address())
            loads = [threading.Thread(target=self.load, args=(front, going)) for _ in range(3)]
            try:
                for it in loads:
                    it.start()
                browser.go(origin + "/")
                browser.wait_for("return document.getElementById('says').textContent === 'The server runs.'")
                browser.wait_for(
                    "return document.querySelectorAll('#connections tr').length === 3 && document.querySelectorAll('#no tr').length === 2"
                )
                browser.wait_for(
                    "return document.querySelector('#p-calls polyline').getAttribute('points').split(' ').length > 5"
                )
                self.assertRegex(
                    browser.run("return document.getElementById('p-time').getAttribute('aria-label')"),
                    r"now .*s, .*s, most",
                )
                self.steady(browser)
                self.looks(browser)
            finally:
                going.set()
                for it in loads:
                    it.join(PATIENCE)
            compared = self.compare_numbers(browser, front)
            self.keyboard(browser)
            os.kill(front.server(), signal.SIGKILL)
            browser.wait_for("return document.getElementById('state').className === 'bad'")
            says = browser.run("return document.getElementById('says').textContent")
            self.assertIn("The server has ended (signal: 9 (SIGKILL))", says)
            self.assertTrue(browser.run("return document.title").startswith("Ended"))
            self.assertEqual(front.end(), 3)
            time.sleep(1)
            self.assertGreater(browser.picture("page-ended"), 20_000)
            self.only_this_front(browser, origin)
            print(f"{compared} numbers of the page are those of /metrics; pictures in {OUT}")

    def test_a_class_of_a_stranger_is_text(self):
        """Nothing that a client sends becomes HTML, also not the name of its class."""
        with Running("--http", "0") as front, front.open() as a, Browser() as browser:
            self.define(a, another(7).replace(b"Row0007", b"<b>x<b>"), 0)
            a.sendall(define(b"<script>alert(1)</script>") + END)
            browser.go("http://{}:{}/".format(*front.http_address()))
            browser.wait_for("return document.querySelectorAll('#classes tr').length >= 1")
            self.assertEqual(browser.run("return document.querySelectorAll('script').length"), 1)
            self.assertEqual(browser.run(self.ROWS, "classes")[0][1], "<b>x<b>")
            self.assertEqual(browser.log("browser"), [])


if __name__ == "__main__":
    unittest.main()
