#!/usr/bin/env python3
"""prometheus_test: Debian's Prometheus scrapes a front under load; promtool checks its metrics, and the configuration and the alerts of
docs/OPERATIONS.md. running.py has the requirements. JENTRY_LOAD names the built examples/load, and JENTRY_LOAD_SECONDS its duration (60
s)."""
import json
import os
import re
import socket
import subprocess
import tempfile
import time
import unittest
import urllib.parse
import urllib.request

from frames import DONE, END, ENDED, put
from packages import need
from running import PATIENCE, FrontTest, Running

HERE = os.path.dirname(os.path.abspath(__file__))
PAGE = os.path.join(HERE, "../../docs/OPERATIONS.md")
CLASS = os.path.join(HERE, "../../examples/Plus.class")
LOAD = os.environ.get("JENTRY_LOAD")
SECONDS = int(os.environ.get("JENTRY_LOAD_SECONDS", "60"))
ALERTS = (
    "JentryDown",
    "JentryStalled",
    "JentryRestarted",
    "JentrySlow",
    "JentryConnectionsRejected",
    "JentryClassesDenied",
    "JentryClassesNearLimit",
)
# Series before and after minute 20, in which nothing is wrong, and everything is.
SERIES = {
    "up": "1x20 0x20",
    "jentry_server_up": "1x20 0x20",
    "jentry_batch_age_seconds": "0x20 11+60x20",
    "jentry_server_start_time_seconds": "1000x20 2000+300x20",
    'jentry_round_seconds_bucket{le="0.05"}': "0+100x20 2000x20",
    'jentry_round_seconds_bucket{le="0.5"}': "0+100x20 2000+10x20",
    'jentry_round_seconds_bucket{le="5"}': "0+100x20 2000+100x20",
    'jentry_round_seconds_bucket{le="+Inf"}': "0+100x20 2000+100x20",
    "jentry_connections_rejected_total": "3x20 4+1x20",
    'jentry_denials_total{number="4"}': "3x20 4+1x20",
    'jentry_denials_total{number="5"}': "0+9x40",
    "jentry_classes": "10x20 3500x20",
}
PAGES = ("JentryDown", "JentryStalled")


def blocks(language):
    """Returns the code blocks of this language in docs/OPERATIONS.md."""
    with open(PAGE, encoding="utf-8") as page:
        return re.findall(rf"```{language}\n(.*?)```", page.read(), re.DOTALL)


def with_labels(series):
    """Returns a series with the labels of the front a."""
    name, _, labels = series.rstrip("}").partition("{")
    return f'{name}{{job="jentry", instance="a"{", " * bool(labels)}{labels}}}'


def promtool(*words, text=None):
    return subprocess.run(
        ["promtool", *words],
        input=text,
        text=True,
        stdout=subprocess.PIPE,
        stderr=subprocess.STDOUT,
        timeout=PATIENCE,
        check=False,
    )


def free_port():
    with socket.socket() as it:
        it.bind(("127.0.0.1", 0))
        return it.getsockname()[1]


class Prometheus:
    """A Prometheus in its own folder that scrapes a front each second."""

    def __init__(self, front):
        self.folder = tempfile.TemporaryDirectory()
        self.port = free_port()
        host, port = front.http_address()
        config = os.path.join(self.folder.name, "prometheus.yml")
        rules = os.path.join(self.folder.name, "jentry.rules.yml")
        scrape, alerts = blocks("yaml")
        with open(rules, "w", encoding="utf-8") as file:
            file.write(alerts)
        with open(config, "w", encoding="utf-8") as file:
            file.write(
                scrape.replace("127.0.0.1:9464", f"{host}:{port}")
                .replace("15s", "1s")
                .replace("/etc/prometheus/jentry.rules.yml", rules)
            )
        self.process = subprocess.Popen(
            [
                "prometheus",
                f"--config.file={config}",
                f"--storage.tsdb.path={self.folder.name}/data",
                f"--web.listen-address=127.0.0.1:{self.port}",
            ],
            stdin=subprocess.DEVNULL,
            stdout=subprocess.DEVNULL,
            stderr=subprocess.DEVNULL,
        )

    def __enter__(self):
        return self

    def __exit__(self, *_):
        self.process.terminate()
        self.process.wait(PATIENCE)
        self.folder.cleanup()

    def ask(self, path, **words):
        with urllib.request.urlopen(
            f"http://127.0.0.1:{self.port}{path}?{urllib.parse.urlencode(words)}", timeout=PATIENCE
        ) as answer:
            return json.load(answer)["data"]

    def value(self, query):
        """Returns the value of a query with one series, or None."""
        found = self.ask("/api/v1/query", query=query)["result"]
        return float(found[0]["value"][1]) if len(found) == 1 else None

    def wait_for(self, query, wanted):
        """Waits until a query has this value, for PATIENCE seconds at most. Returns its last value."""
        end, found = time.monotonic() + PATIENCE, None
        while time.monotonic() < end:
            try:
                found = self.value(query)
            except OSError:
                pass
            if found == wanted:
                break
            time.sleep(0.3)
        return found


class Scraped(FrontTest):
    def setUp(self):
        need(prometheus="prometheus", promtool="prometheus")

    def test_promtool_has_nothing_to_say_of_the_metrics(self):
        with Running("--http", "0") as front, front.open() as a:
            self.ask(a, put(1, 1) + END, DONE + ENDED)
            told = promtool("check", "metrics", text=front.http("/metrics")[2])
            self.assertEqual((told.returncode, told.stdout), (0, ""))

    @unittest.skipUnless(LOAD, "JENTRY_LOAD names no load generator")
    def test_counters_equal_what_the_load_counted(self):
        with Running("--http", "0") as front, Prometheus(front) as prometheus:
            self.assertEqual(prometheus.wait_for('up{job="jentry"}', 1), 1)
            with front.open() as a:  # the load's class throws on absent keys
                self.ask(a, b"".join(put(key, 0) for key in range(1_024)) + END, 1_024 * DONE + ENDED)
            load = subprocess.run(
                [LOAD, front.place, "16", str(SECONDS), CLASS, "4", "4"],
                stdout=subprocess.PIPE,
                text=True,
                timeout=SECONDS + PATIENCE,
                check=True,
            ).stdout
            rounds, calls = map(int, re.search(r"(\d+) rounds of (\d+) calls in all", load).groups())
            self.assertGreater(rounds, 0)
            self.assertEqual(prometheus.wait_for('jentry_requests_total{kind="invoke"}', calls), calls)
            for query, wanted in (
                ('jentry_replies_total{kind="result"}', calls),
                ("jentry_runs_total", calls),
                ("jentry_steps_total", 14 * calls),
                ("jentry_round_seconds_count", rounds + 1),
                ("jentry_round_requests_sum", calls + 1_024),
                ('jentry_requests_total{kind="define"}', 16),
                ('jentry_requests_total{kind="put"}', 1_024),
                ("jentry_rounds_total", rounds + 17),
                ("jentry_connections_opened_total", 17),
            ):
                self.assertEqual(prometheus.value(query), wanted, query)
            scrapes = prometheus.value(f'count_over_time(up{{job="jentry"}}[{SECONDS}s])')
            self.assertGreater(scrapes, 0.5 * SECONDS)
            self.assertEqual(prometheus.value(f'min_over_time(up{{job="jentry"}}[{SECONDS}s])'), 1)
            slowest = prometheus.value(f'max_over_time(scrape_duration_seconds{{job="jentry"}}[{SECONDS}s])')
            print(
                f"{SECONDS} s of load: {calls} calls counted by both, {scrapes:.0f} scrapes, the slowest {slowest:.3f} s"
            )
            rules = prometheus.ask("/api/v1/rules")["groups"]
            self.assertEqual(
                {(it["name"], it["health"]) for group in rules for it in group["rules"]},
                {(name, "ok") for name in ALERTS},
            )


class Page(unittest.TestCase):
    """Tests of the configuration and the alerts in docs/OPERATIONS.md."""

    def setUp(self):
        need(promtool="prometheus")
        self.folder = tempfile.TemporaryDirectory()
        self.addCleanup(self.folder.cleanup)
        self.assertEqual(len(blocks("yaml")), 2)
        self.rules = self.write("jentry.rules.yml", blocks("yaml")[1])

    def write(self, name, text):
        path = os.path.join(self.folder.name, name)
        with open(path, "w", encoding="utf-8") as file:
            file.write(text)
        return path

    def test_promtool_accepts_configuration_and_rules(self):
        config = self.write("prometheus.yml", blocks("yaml")[0].replace("/etc/prometheus/jentry.rules.yml", self.rules))
        told = promtool("check", "config", config)
        self.assertEqual(told.returncode, 0, told.stdout)
        told = promtool("check", "rules", self.rules)
        self.assertEqual(told.returncode, 0, told.stdout)
        self.assertIn(f"{len(ALERTS)} rules found", told.stdout)

    def test_alerts_fire_when_they_should_and_only_then(self):
        of_front = {"job": "jentry", "instance": "a"}
        labels = {name: {"severity": "page" if name in PAGES else "ticket"} for name in ALERTS}
        labels["JentryClassesDenied"]["number"] = "4"
        cases = [
            {"eval_time": time, "alertname": name, "exp_alerts": [{"exp_labels": dict(labels[name])}] if fires else []}
            for name in ALERTS
            for time, fires in (("15m", False), ("40m", True))
        ]
        summaries = dict(re.findall(r"- alert: (\w+)\n.*?summary: (.*?)\n", blocks("yaml")[1], re.DOTALL))
        self.assertEqual(set(summaries), set(ALERTS))
        for case in cases:
            for alert in case["exp_alerts"]:
                alert["exp_labels"].update(of_front)
                alert["exp_annotations"] = {"summary": summaries[case["alertname"]]}
        test = {
            "rule_files": [self.rules],
            "evaluation_interval": "1m",
            "tests": [
                {
                    "interval": "1m",
                    "input_series": [{"series": with_labels(name), "values": it} for name, it in SERIES.items()],
                    "alert_rule_test": cases,
                }
            ],
        }
        told = promtool("test", "rules", self.write("test.yml", json.dumps(test)))
        self.assertEqual(told.returncode, 0, told.stdout)


if __name__ == "__main__":
    unittest.main()
