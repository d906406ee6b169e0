"""Tests third-party clients: redis-cli, and python3-redis on one server and on a cluster."""
import os
import subprocess
import sys
import unittest

from cluster import CLI, Cluster
from commands_test import OneServer
from module_test import LACKS
from servers import EXAMPLES, HERE, PATIENCE


def python_with_redis():
    """Returns a Python interpreter that has python3-redis, or None."""
    for python in (sys.executable, "/usr/bin/python3"):
        if (
            os.path.exists(python)
            and subprocess.run(
                [python, "-c", "import redis.cluster"], stderr=subprocess.DEVNULL, check=False
            ).returncode
            == 0
        ):
            return python
    return None


PYTHON = python_with_redis()
NEEDS_PYTHON = unittest.skipIf(PYTHON is None, "there is no python3-redis (apt-get install python3-redis)")


@unittest.skipIf(CLI is None, "there is no redis-cli (apt-get install redis-tools)")
class RedisCli(OneServer):
    def cli(self, *words, **how):
        done = subprocess.run(
            [CLI, "-p", str(self.server.port), *map(str, words)],
            stdout=subprocess.PIPE,
            timeout=PATIENCE,
            check=True,
            **how
        )
        return done.stdout.decode().splitlines()

    def test_the_start_of_the_page(self):
        with open(os.path.join(EXAMPLES, "Add.class"), "rb") as file:
            told = self.cli("-x", "JENTRY.DEFINE", stdin=file)
        self.assertEqual(told, [self.add.decode(), "29", "0", "17", "2"])
        self.assertEqual(self.cli("JENTRY.INVOKE", told[0], "visits:7", 1), ["1"])
        self.assertEqual(self.cli("JENTRY.INVOKE", told[0], "visits:7", 1), ["2"])
        self.assertEqual(self.cli("GET", "visits:7"), ["2"])
        self.assertEqual(
            self.cli("JENTRY.INVOKE", told[0], "visits", 1)[0], "ERR the key doesn't end in a decimal long"
        )


@NEEDS_PYTHON
class PythonRedis(OneServer):
    def run_client(self, *words):
        done = subprocess.run(
            [PYTHON, "-B", os.path.join(HERE, "redis_client.py"), *map(str, words)],
            stdout=subprocess.PIPE,
            stderr=subprocess.PIPE,
            text=True,
            timeout=PATIENCE,
            check=False,
        )
        self.assertEqual(done.returncode, 0, done.stderr[-2000:])
        return done.stdout.splitlines()

    def test_one_server(self):
        self.line.get("JENTRY.FORGET", self.add)
        told = self.run_client("one", self.server.port, os.path.join(EXAMPLES, "Add.class"))
        self.assertEqual(
            told,
            [
                "12 12",
                "None ResponseError THREW 2 ArrayIndexOutOfBoundsException",
                "[1, 2, 3]",
                "{'jentry_classes': 1}",
            ],
        )


@unittest.skipIf(LACKS, LACKS)
@NEEDS_PYTHON
class PythonRedisCluster(unittest.TestCase):
    run_client = PythonRedis.run_client

    def test_cluster(self):
        with Cluster() as cluster:
            told = self.run_client("cluster", cluster.nodes[0].port, os.path.join(EXAMPLES, "Add.class"))
            self.assertEqual(told, ["24 24", "None ResponseError THREW 2 ArrayIndexOutOfBoundsException"])
            # The client forgets the class at the end.
            for node in cluster.masters():
                with node.open() as line:
                    self.assertEqual(line.get("JENTRY.LIST"), [])
