#!/usr/bin/env python3
"""front_units_test: the files of sockets with --mode and --group, and the units for systemd. running.py has the requirements."""
import configparser
import grp
import os
import re
import shutil
import stat
import subprocess
import tempfile
import unittest

from frames import DONE, END, ENDED, put
from running import FRONT, PATIENCE, FrontTest, Running

FOLDER = os.path.join(os.path.dirname(os.path.abspath(__file__)), "../front")
NAMES = ("jentry-front.service", "jentry-front.socket")


class Rights(FrontTest):
    def rights(self, *options, umask=0o022):
        """Returns the permissions and the group of a front's socket."""
        with Running(*options, preexec_fn=lambda: os.umask(umask)) as front, front.open() as a:
            self.ask(a, put(1, 1) + END, DONE + ENDED)
            it = os.stat(front.place)
            return stat.S_IMODE(it.st_mode), it.st_gid

    def test_mode_and_group_are_those_of_the_options(self):
        mine = os.getgid()
        self.assertEqual(self.rights(), (0o755, mine))
        self.assertEqual(self.rights("--mode", "0600"), (0o600, mine))
        self.assertEqual(self.rights("--mode", "666", umask=0o077), (0o666, mine))
        self.assertEqual(self.rights("--group", str(mine)), (0o660, mine))
        self.assertEqual(self.rights("--group", grp.getgrgid(mine).gr_name, "--mode", "0666"), (0o666, mine))

    @unittest.skipUnless(os.geteuid() == 0, "only root gives a socket to any group")
    def test_a_group_is_given_the_socket(self):
        self.assertEqual(self.rights("--group", "12345"), (0o660, 12_345))

    def test_another_group_is_refused_without_the_right(self):
        told = subprocess.run(
            [FRONT, "--unix", "/tmp/none", "--group", "nobody-has-this-group", "x"],
            stderr=subprocess.PIPE,
            text=True,
            timeout=PATIENCE,
        )
        self.assertEqual(told.returncode, 1)
        self.assertIn("there is no such group", told.stderr)


@unittest.skipUnless(shutil.which("systemd-analyze"), "there is no systemd-analyze (apt-get install systemd)")
class Units(unittest.TestCase):
    def setUp(self):
        folder = tempfile.TemporaryDirectory()
        self.addCleanup(folder.cleanup)
        self.paths = [os.path.join(folder.name, name) for name in NAMES]
        for name, path in zip(NAMES, self.paths):
            with open(os.path.join(FOLDER, name), encoding="utf-8") as unit, open(path, "w", encoding="utf-8") as copy:
                copy.write(re.sub(r"/usr/local/bin/[\w-]+", shutil.which("true"), unit.read()))

    def unit(self, name):
        parser = configparser.ConfigParser(strict=False, interpolation=None)
        parser.optionxform = str
        parser.read(os.path.join(FOLDER, name))
        return parser

    def analyze(self, *words):
        return subprocess.run(
            ["systemd-analyze", *words], stdout=subprocess.PIPE, stderr=subprocess.STDOUT, text=True, timeout=PATIENCE
        )

    def test_systemd_accepts_the_units(self):
        told = self.analyze("verify", *self.paths)
        self.assertEqual((told.returncode, told.stdout), (0, ""))

    def test_crashes_leave_nothing_failed(self):
        service, socket = map(self.unit, NAMES)
        self.assertEqual(service["Unit"]["StartLimitIntervalSec"], "0")
        self.assertEqual((service["Service"]["Restart"], service["Service"]["RestartSec"]), ("on-failure", "2"))
        self.assertEqual(socket["Socket"]["TriggerLimitIntervalSec"], "0")

    def test_the_service_can_be_enabled_and_is_watched(self):
        service, socket = map(self.unit, NAMES)
        self.assertEqual(service["Install"]["WantedBy"], "multi-user.target")
        self.assertEqual((service["Service"]["Type"], service["Service"]["WatchdogSec"]), ("notify", "60"))
        self.assertEqual((socket["Socket"]["SocketMode"], socket["Socket"]["SocketGroup"]), ("0660", "jentry"))
        with open(os.path.join(FOLDER, "jentry-front.sysusers"), encoding="utf-8") as file:
            self.assertIn("g jentry -\nu jentry - ", file.read())


if __name__ == "__main__":
    unittest.main()
