#!/usr/bin/env python3
"""front_systemd_test: the package jentry under a systemd of its own, in a container (systemd_container.py). running.py has the requirements.

The container is started by
    systemd-nspawn --directory=ROOT --overlay=/usr:UPPER:/usr --overlay=/var/lib/dpkg:UPPER:/var/lib/dpkg
        --private-network --register=no --keep-unit --console=pipe --boot
and each command in it is run by `nsenter --target=PID --all -- COMMAND`, where PID is the child of systemd-nspawn. The package has the units, the
scripts and the settings as bin/release packs them: `dpkg --install jentry_VERSION_amd64.deb`. Then the tests do what an administrator does:
    systemctl enable --now jentry-front.service
    systemctl restart jentry-front.service
    kill -9 $(systemctl show --property=MainPID --value jentry-front.service)
Without JENTRY_PROGRAM, and with a trial build, the package has fake_server.py as its program.
"""
import os
import shutil
import socket
import sys
import tempfile
import time
import unittest

from frames import DONE, END, ENDED, get, put, value
from running import FRONT, HERE, PATIENCE, PROGRAM, FrontTest, is_ended
from systemd_container import Container

# It goes last, like the folder that running.py names.
sys.path.append(os.path.join(HERE, "../../bin"))
import packing
from shared import TOP, load_script, text_of

SOCKET, SERVICE = "jentry-front.socket", "jentry-front.service"
PLACE, SETTINGS, DROP_IN = "/run/jentry.sock", "etc/default/jentry-front", f"etc/systemd/system/{SERVICE}.d/test.conf"
SECONDS = 1_700_000_000
STAND_IN = "#!/bin/sh\nexec /usr/bin/python3 -B /usr/lib/jentry/fake_server.py\n"
MEMBER = "import socket; socket.socket(socket.AF_UNIX).connect('/run/jentry.sock')"


def pack(version, to):
    """Makes a package of this version: what bin/release packs, without the clients, the pages and the command of the compiler."""
    release = load_script("release")
    with tempfile.TemporaryDirectory() as tree:
        root = os.path.join(tree, "usr")
        if PROGRAM and not os.environ.get("JENTRY_TRIAL"):
            packing.put(PROGRAM, f"{root}/lib/jentry/jentry", 0o755)
        else:
            packing.write(f"{root}/lib/jentry/jentry", STAND_IN, 0o755)
            packing.put(os.path.join(HERE, "fake_server.py"), f"{root}/lib/jentry/fake_server.py")
        packing.write(f"{root}/bin/jentry", release.packaged_command(version), 0o755)
        packing.put(FRONT, f"{root}/bin/jentry-front", 0o755)
        release.put_units(root)
        release.put_service(tree)
        packing.pack_deb(tree, text_of(f"{TOP}/packaging/control"), version, SECONDS, to)


class SystemdTest(FrontTest):
    """Tests in a container that has the package."""

    @classmethod
    def setUpClass(cls):
        if not shutil.which("python3", path="/usr/bin"):
            raise unittest.SkipTest("there is no /usr/bin/python3 for the container")
        cls.container = Container()
        cls.addClassCleanup(cls.container.end)
        cls.container.boot()
        cls.install("1.0.0")

    @classmethod
    def install(cls, version):
        pack(version, os.path.join(cls.container.root, f"root/jentry_{version}_amd64.deb"))
        cls.container.run("dpkg", "--install", f"/root/jentry_{version}_amd64.deb", check=True)

    def systemctl(self, *words):
        return self.container.run("systemctl", *words, check=True).stdout.strip()

    def state(self, *units):
        """Returns the states of units, such as active, inactive and failed."""
        return self.container.run("systemctl", "is-active", *units).stdout.split()

    def shown(self, name, unit=SERVICE):
        return self.systemctl("show", f"--property={name}", "--value", unit)

    def until(self, meant, what):
        """Waits until `meant` returns something that holds, and returns it."""
        deadline = time.monotonic() + PATIENCE
        while time.monotonic() < deadline:
            found = meant()
            if found:
                return found
            time.sleep(0.1)
        return self.fail(f"{what}\n" + self.journal())

    def journal(self):
        return self.container.run("journalctl", f"--unit={SERVICE}", "--no-pager", "--output=cat").stdout

    def open(self):
        line = socket.socket(socket.AF_UNIX)
        line.settimeout(PATIENCE)
        line.connect(self.container.path(PLACE))
        self.addCleanup(line.close)
        return line

    def call(self, key=1, before=None):
        """Opens a connection, gets a value and puts it again."""
        line = self.open()
        self.ask(line, get(key) + END, value(before) + ENDED)
        self.ask(line, put(key, 7) + END, DONE + ENDED)
        return line

    def main(self):
        """Returns the process of the front that is ready, as the container numbers it."""
        return self.until(lambda: self.state(SERVICE) == ["active"] and self.shown("MainPID"), "no front is ready")

    def server(self):
        """Returns the process of the server."""
        return self.container.run("pgrep", "--parent", self.main(), check=True).stdout.split()[0]


class Service(SystemdTest):
    def setUp(self):
        self.systemctl("stop", SOCKET, SERVICE)
        for path in (SETTINGS, DROP_IN):
            self.container.write(path, "")
        self.systemctl("daemon-reload")
        self.systemctl("start", SOCKET)
        self.assertEqual(self.state(SOCKET, SERVICE), ["active", "inactive"])

    def test_the_first_connection_starts_the_service(self):
        line = self.call()
        self.ask(line, get(1) + END, value(7) + ENDED)
        self.assertEqual(self.state(SOCKET, SERVICE), ["active", "active"])
        owners = self.container.run("ps", "-o", "user=", "-p", self.main(), "-p", self.server()).stdout.split()
        self.assertEqual(owners, ["jentry", "jentry"])

    def test_only_members_of_the_group_connect(self):
        words = ["setpriv", "--reuid=65534", "--regid=65534"]
        others = self.container.run(*words, "--clear-groups", "/usr/bin/python3", "-c", MEMBER)
        self.assertIn("PermissionError", others.stdout)
        self.container.run(*words, "--groups=jentry", "/usr/bin/python3", "-c", MEMBER, check=True)

    def test_it_starts_again_after_each_kill_and_nothing_fails(self):
        """More kills than the five starts in ten seconds that systemd allows by default."""
        line = self.call()
        for n in range(8):
            killed = self.main()
            self.container.run("kill", "-9", killed if n % 2 else self.server(), check=True)
            self.assertTrue(is_ended(line))
            # This connection arrives while no front runs, and waits for the next one, whose cache is empty.
            line = self.call()
            self.assertNotEqual(self.main(), killed)
        self.assertEqual(self.state(SOCKET, SERVICE), ["active", "active"])
        self.assertGreaterEqual(int(self.shown("NRestarts")), 8)
        self.assertIn("the server has ended (signal: 9 (SIGKILL))", self.journal())

    def test_the_watchdog_ends_a_server_that_hangs(self):
        self.container.write(DROP_IN, "[Service]\nWatchdogSec=3\n")
        self.container.write(SETTINGS, "JENTRY_FRONT_OPTIONS=--stall 1\n")
        self.systemctl("daemon-reload")
        line, killed = self.call(), self.main()
        time.sleep(5)
        self.assertEqual(self.main(), killed, "the watchdog ended a front that works")
        self.container.run("kill", "-STOP", self.server(), check=True)
        line.sendall(get(1) + END)
        self.assertTrue(is_ended(line))
        self.assertNotEqual(self.main(), killed)
        self.call()
        told = self.journal()
        self.assertIn("the server hasn't answered a batch for 1 s", told)
        self.assertIn("Watchdog timeout", told)
        self.assertIn("Failed with result 'watchdog'", told)

    def test_the_watchdog_ends_a_front_that_hangs(self):
        self.container.write(DROP_IN, "[Service]\nWatchdogSec=2\nTimeoutAbortSec=2\n")
        self.systemctl("daemon-reload")
        line, killed = self.call(), self.main()
        self.container.run("kill", "-STOP", killed, check=True)
        self.assertTrue(is_ended(line))
        self.assertNotEqual(self.main(), killed)
        self.call()

    def test_a_restart_keeps_the_socket(self):
        line, before = self.call(), os.stat(self.container.path(PLACE))
        for _ in range(3):
            killed = self.main()
            self.systemctl("--no-block", "restart", SERVICE)
            self.assertTrue(is_ended(line))
            line = self.call()
            self.assertNotEqual(self.main(), killed)
        after = os.stat(self.container.path(PLACE))
        self.assertEqual((after.st_dev, after.st_ino, after.st_mode), (before.st_dev, before.st_ino, before.st_mode))

    def test_a_stop_is_no_failure_and_the_socket_goes_on(self):
        line = self.call()
        self.systemctl("stop", SERVICE)
        self.assertTrue(is_ended(line))
        self.assertEqual(self.state(SOCKET, SERVICE), ["active", "inactive"])
        self.call()
        self.assertEqual(self.state(SERVICE), ["active"])

    def test_settings_hold_from_the_next_start(self):
        """The user who may define, the metrics on the loopback, and a log in the only folder that the service may write."""
        self.container.write(
            SETTINGS, "JENTRY_FRONT_OPTIONS=--http 9464 --log-file /var/log/jentry/front.log --define-uid jentry\n"
        )
        self.systemctl("start", SERVICE)
        code = "import urllib.request as it; print(it.urlopen('http://127.0.0.1:9464/metrics').read().decode())"
        told = self.container.run("/usr/bin/python3", "-c", code, check=True).stdout
        self.assertIn("\njentry_server_up 1\n", told)
        with open(self.container.path("/var/log/jentry/front.log"), encoding="utf-8") as log:
            self.assertIn("listening on the standard input", log.read())
        self.container.write(SETTINGS, "JENTRY_FRONT_OPTIONS=--log-file /root/front.log\n")
        self.container.run("systemctl", "restart", SERVICE)
        self.until(lambda: "can't open the log's file" in self.journal(), "a log elsewhere")

    def test_operators_control_the_service(self):
        """The control socket is root's and the front's; it comes and goes with the service."""
        self.call()
        told = self.container.run("jentry-front", "ctl", "peers", check=True).stdout
        self.assertRegex(told, r"^PEER +CONNECTIONS .*\nuid:0 +1 ")
        nobody = ["setpriv", "--reuid=65534", "--regid=65534", "--clear-groups", "jentry-front", "ctl", "peers"]
        refused = self.container.run(*nobody)
        self.assertEqual(refused.returncode, 3)
        self.assertIn("only the front's user and root may connect", refused.stdout)
        self.container.run("jentry-front", "ctl", "drain", check=True)
        self.until(lambda: self.state(SOCKET, SERVICE) == ["active", "inactive"], "the service drains")
        self.assertFalse(os.path.exists(self.container.path("/run/jentry-front")))
        self.call()
        self.container.run("jentry-front", "ctl", "status", check=True)


class Package(SystemdTest):
    def enabled(self):
        return self.container.run("systemctl", "is-enabled", SOCKET, SERVICE).stdout.split()

    def test_it_is_installed_enabled_booted_upgraded_and_purged(self):
        self.assertEqual(
            (self.enabled(), self.state(SOCKET, SERVICE)), (["enabled", "disabled"], ["active", "inactive"])
        )
        self.systemctl("enable", "--now", SERVICE)
        self.assertEqual((self.enabled(), self.state(SOCKET, SERVICE)), (["enabled"] * 2, ["active"] * 2))
        self.call()
        self.boots()
        self.upgrades()
        self.container.run("dpkg", "--remove", "jentry", check=True)
        self.assertEqual(self.state(SOCKET, SERVICE), ["inactive", "inactive"])
        self.assertFalse(os.path.exists(self.container.path(PLACE)))
        self.container.run("getent", "passwd", "jentry", check=True)
        self.container.run("dpkg", "--purge", "jentry", check=True)
        for path in (f"/{SETTINGS}", "/var/log/jentry", f"/etc/systemd/system/multi-user.target.wants/{SERVICE}"):
            self.assertFalse(os.path.lexists(self.container.path(path)), path)
        self.assertEqual(self.container.run("getent", "passwd", "jentry").stdout, "")
        self.assertEqual(self.container.run("systemctl", "--failed", "--plain", "--no-legend").stdout, "")

    def boots(self):
        """After a boot the service runs before anybody has connected."""
        self.container.halt()
        self.container.boot()
        self.assertEqual(self.state(SOCKET, SERVICE), ["active", "active"])
        self.call()

    def upgrades(self):
        """The socket stays, and a connection that arrives meanwhile is answered by the new front. Changed settings are kept."""
        line, killed, before = self.call(before=7), self.main(), os.stat(self.container.path(PLACE)).st_ino
        self.container.write(SETTINGS, "JENTRY_FRONT_OPTIONS=--stall 7\n")
        self.install("1.0.1")
        self.assertTrue(is_ended(line))
        self.call()
        self.assertNotEqual(self.main(), killed)
        self.assertEqual(os.stat(self.container.path(PLACE)).st_ino, before)
        self.assertEqual((self.enabled(), self.state(SOCKET, SERVICE)), (["enabled"] * 2, ["active"] * 2))
        words = self.container.run("ps", "-o", "args=", "-p", self.main()).stdout
        self.assertRegex(words, r"/usr/bin/jentry-front .*--stall 7 /usr/bin/jentry serve")
        self.assertEqual(self.container.run("jentry", "--version").stdout, "jentry 1.0.1\n")


if __name__ == "__main__":
    unittest.main()
