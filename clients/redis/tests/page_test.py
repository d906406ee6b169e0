"""Tests that the commands in README and docs/REDIS.md run and print what the pages show, on servers with ports of their own."""
import os
import re
import shutil
import subprocess
import tempfile
import unittest

from cluster import CLI
from commands_test import OneServer
from module_test import ModuleTest
from servers import BUS, HERE, MODULE, PATIENCE, PORTS, is_free, wait_for

TOP = os.path.realpath(os.path.join(HERE, "../../.."))
BUILT = "$PWD/clients/redis/target/release/libjentry.so"
"""Where the pages' commands have the module."""
CLUSTER_PORTS = "700"
"""What the ports of the page's cluster begin with, and the last digits of its six."""
NODES = range(1, 7)


def blocks(page):
    """Returns the fenced blocks of a page."""
    with open(os.path.join(TOP, page), encoding="utf-8") as file:
        return re.findall(r"^```\n(.*?)^```$", file.read(), re.MULTILINE | re.DOTALL)


def steps(block):
    """Returns the commands of a session, each with its output."""
    return [
        (command, "".join(line + "\n" for line in printed.splitlines()))
        for command, printed in re.findall(r"^\$ (.*)\n((?:[^$].*\n|\n)*)", block, re.MULTILINE)
    ]


def start_of_the_page():
    """Returns the first session of docs/REDIS.md."""
    return next(steps(block) for block in blocks("docs/REDIS.md") if block.startswith("$ redis-cli"))


def shell(text):
    """Runs a text with bash at the top of the repository, and returns its output. The status must be 0."""
    done = subprocess.run(
        ["bash", "-e", "-c", text],
        cwd=TOP,
        stdin=subprocess.DEVNULL,
        stdout=subprocess.PIPE,
        stderr=subprocess.STDOUT,
        text=True,
        timeout=PATIENCE,
        check=False,
    )
    if done.returncode != 0:
        raise AssertionError(f"{text}\nended with status {done.returncode}:\n{done.stdout}")
    return done.stdout


def as_on_a_terminal(text, port=None):
    """Changes the commands so that redis-cli prints to a pipe as it does to a terminal, and connects to the server at this port."""
    return text.replace("redis-cli", f"{CLI} --no-raw" + (f" -p {port}" if port else ""))


@unittest.skipIf(CLI is None, "there is no redis-cli (apt-get install redis-tools)")
class Pages(OneServer):
    def run_here(self, command):
        return shell(as_on_a_terminal(command, self.server.port))

    def test_sessions(self):
        sessions = [steps(block) for block in blocks("docs/REDIS.md") if block.startswith("$ redis-cli")]
        self.assertGreater(len(sessions), 0)
        for session in sessions:
            self.line.get("FLUSHALL")
            self.assertGreater(len(session), 2)
            for command, printed in session:
                with self.subTest(command=command):
                    self.assertEqual(self.run_here(command), printed)

    def test_readme(self):
        """README's commands are the first of the page's session; tests/pages/blocks_test.py pastes the whole block."""
        (block,) = [block for block in blocks("README.md") if "redis-cli" in block]
        self.assertIn(f" --loadmodule {BUILT}\n", block)
        commands = [line.replace(" -p 6390", "") for line in block.splitlines() if line.startswith("redis-cli")]
        self.assertGreater(len(commands), 1)
        self.assertEqual(commands, [command for command, _ in start_of_the_page()[: len(commands)]])

    def test_rights(self):
        rules = [block.splitlines() for block in blocks("docs/REDIS.md") if block.startswith("ACL ")]
        self.assertEqual(len(rules), 1)
        for rule in rules[0]:
            self.assertEqual(self.line.ask(*rule.split()), b"OK")

    def test_table_of_commands(self):
        with open(os.path.join(TOP, "docs/REDIS.md"), encoding="utf-8") as file:
            told = set(re.findall(r"^\| `(JENTRY\.[A-Z]+)", file.read(), re.MULTILINE))
        known = {row[0].decode().upper() for row in self.line.get("COMMAND") if row[0].startswith(b"jentry.")}
        self.assertEqual(told, known)


def free_ports():
    """Returns the common first digits of six ports that are free, together with the ports of their cluster buses."""
    for first in range(PORTS[0] // 10 + os.getpid() % 1000, PORTS[-1] // 10):
        if all(is_free(10 * first + node) and is_free(10 * first + node + BUS) for node in NODES):
            return str(first)
    raise OSError("there are no six free ports")


@unittest.skipIf(CLI is None, "there is no redis-cli (apt-get install redis-tools)")
class PageOfTheCluster(ModuleTest):
    def end(self):
        for node in NODES:
            subprocess.run(
                [CLI, "-p", self.ports + str(node), "SHUTDOWN", "NOSAVE", "NOW", "FORCE"],
                stdout=subprocess.DEVNULL,
                stderr=subprocess.DEVNULL,
                check=False,
            )
        wait_for(lambda: all(is_free(int(self.ports + str(node))) for node in NODES), "the end of the six nodes")
        shutil.rmtree(self.folder, ignore_errors=True)

    def test_it_runs(self):
        (block,) = [block for block in blocks("docs/REDIS.md") if "--cluster create" in block]
        self.folder, self.ports = tempfile.mkdtemp(prefix="jentry-redis-page-"), free_ports()
        self.addCleanup(self.end)
        self.assertIn(BUILT, block)
        for on_page, here in ((BUILT, MODULE), ("/tmp/n/", self.folder + "/"), (CLUSTER_PORTS, self.ports)):
            block = block.replace(on_page, here)
        told = shell(as_on_a_terminal(block))
        self.assertIn("[OK] All 16384 slots covered.", told)
        (_, defined), *_ = start_of_the_page()
        self.assertTrue(told.endswith(defined + '(integer) 1\n"1"\n'), told)
