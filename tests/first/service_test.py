"""The front's service in the package jentry: what the package's scripts call at an installation, an upgrade, a removal and a purge."""
import glob
import os
import re
import shutil
import subprocess
import tempfile
import unittest

import released
import tiny
from shared import text_of

SCRIPTS = ("postinst", "prerm", "postrm")
SOCKET, SERVICE = "jentry-front.socket", "jentry-front.service"
HELPERS = ("deb-systemd-helper", "deb-systemd-invoke", "systemd-sysusers")
EXPOSURE = 1.2
"""The most points that `systemd-analyze security` of systemd 252 may count."""
TOOLS = ("systemctl", "getent", "groupadd", "useradd", "userdel", "groupdel")
STAND_IN = """#!/bin/sh
echo "${0##*/} $*" >>"$CALLS"
case "${0##*/} $*" in
  "getent passwd jentry") [ -n "$ACCOUNT" ] && echo "$ACCOUNT" ;;
  *) case "$FAIL" in *"|${0##*/} $*|"*) exit 1 ;; esac ;;
esac
"""
"""A command that writes down its call. It fails if the variable FAIL has the call, and answers for the account jentry with ACCOUNT."""
OURS = "jentry:x:999:999:jentry front:/nonexistent:/usr/sbin/nologin"
FIRST = f"deb-systemd-helper --quiet debian-installed {SERVICE}"
"""The call that fails at a first installation."""


def was_enabled(unit):
    return f"deb-systemd-helper --quiet was-enabled {unit}"


class Scripts(unittest.TestCase):
    """Runs the scripts with stand-ins for all that they call, and below a folder in place of /etc, /run and /var."""

    def setUp(self):
        room = tempfile.TemporaryDirectory()
        self.addCleanup(room.cleanup)
        self.room = room.name
        for folder in ("bin", "etc", "run/systemd/system", "var/log/jentry"):
            os.makedirs(f"{self.room}/{folder}")
        os.symlink(shutil.which("rm"), f"{self.room}/bin/rm")
        for name in (*HELPERS, *TOOLS):
            tiny.write(f"{self.room}/bin/{name}", STAND_IN)
            os.chmod(f"{self.room}/bin/{name}", 0o755)
        for name in SCRIPTS:
            text = re.sub(r"(?<![\w/])/(etc|run|var)/", rf"{self.room}/\1/", text_of(f"{tiny.TOP}/packaging/{name}"))
            tiny.write(f"{self.room}/{name}", text)

    def calls(self, script, *words, fail=(), account=""):
        """Runs a script. Returns the calls that it has made."""
        log = f"{self.room}/calls"
        tiny.write(log, "")
        variables = {"PATH": f"{self.room}/bin", "CALLS": log, "FAIL": f"|{'|'.join(fail)}|", "ACCOUNT": account}
        done = tiny.run(self.room, "/bin/sh", f"{self.room}/{script}", *words, **variables)
        self.assertEqual(done, ("", "", 0), words)
        return text_of(log).splitlines()

    def remove(self, *names):
        for name in names:
            os.remove(f"{self.room}/bin/{name}")

    def test_an_installation_makes_the_user_and_starts_the_socket(self):
        wanted = [
            "systemd-sysusers jentry-front.conf",
            f"deb-systemd-helper unmask {SOCKET}",
            f"deb-systemd-helper unmask {SERVICE}",
            was_enabled(SOCKET),
            f"deb-systemd-helper enable {SOCKET}",
            FIRST,
            f"deb-systemd-helper update-state {SERVICE}",
            "systemctl --system daemon-reload",
            f"deb-systemd-invoke start {SOCKET}",
        ]
        for _ in range(2):
            self.assertEqual(self.calls("postinst", "configure", "", fail=[FIRST]), wanted)

    def test_an_upgrade_restarts_a_service_that_runs(self):
        self.assertEqual(self.calls("prerm", "upgrade", "0.3.0"), [])
        self.assertEqual(self.calls("postrm", "upgrade", "0.3.0"), [])
        made = self.calls("postinst", "configure", "0.2.0", fail=[was_enabled(SERVICE)])
        self.assertEqual(
            made[-3:],
            [
                "systemctl --system daemon-reload",
                f"deb-systemd-invoke try-restart {SERVICE}",
                f"deb-systemd-invoke start {SOCKET}",
            ],
        )
        self.assertFalse([it for it in made if " stop " in it])

    def test_an_upgrade_keeps_what_the_administrator_enabled(self):
        made = self.calls("postinst", "configure", "0.2.0")
        self.assertIn(f"deb-systemd-helper enable {SERVICE}", made)
        self.assertEqual(made[-1], f"deb-systemd-invoke start {SOCKET} {SERVICE}")
        made = self.calls("postinst", "configure", "0.2.0", fail=[was_enabled(SOCKET), was_enabled(SERVICE)])
        self.assertFalse([it for it in made if it.startswith("deb-systemd-helper enable")])
        states = [it for it in made if " update-state " in it]
        self.assertEqual(states, [f"deb-systemd-helper update-state {it}" for it in (SOCKET, SERVICE)])

    def test_a_removal_stops_both_units(self):
        stop = f"deb-systemd-invoke stop {SOCKET} {SERVICE}"
        self.assertEqual(self.calls("prerm", "remove", fail=[stop]), [stop])
        self.assertEqual(self.calls("postrm", "remove"), ["systemctl --system daemon-reload"])
        self.assertTrue(os.path.isdir(f"{self.room}/var/log/jentry"))

    def test_a_purge_removes_links_logs_and_the_user(self):
        tiny.write(f"{self.room}/var/log/jentry/front.log", "a line")
        links = [f"deb-systemd-helper {it} {SOCKET} {SERVICE}" for it in ("purge", "unmask")]
        asked, end = "getent passwd jentry", "systemctl --system daemon-reload"
        group = ["userdel jentry", "getent group jentry"]
        made = self.calls("postrm", "purge", account=OURS)
        self.assertEqual(made, [*links, asked, *group, "groupdel jentry", end])
        self.assertEqual(os.listdir(f"{self.room}/var/log"), [])
        made = self.calls("postrm", "purge", account=OURS, fail=["getent group jentry"])
        self.assertEqual(made, [*links, asked, *group, end])
        for account in ("", "jentry:x:1000:1000:Jen Try:/home/jentry:/bin/bash"):
            self.assertEqual(self.calls("postrm", "purge", account=account), [*links, asked, end])

    def test_without_a_running_systemd_nothing_is_started(self):
        os.rmdir(f"{self.room}/run/systemd/system")
        for words in (("postinst", "configure", "0.2.0"), ("prerm", "remove"), ("postrm", "purge")):
            made = self.calls(*words, account=OURS)
            self.assertFalse([it for it in made if it.startswith(("systemctl", "deb-systemd-invoke"))], words)

    def test_other_calls_of_dpkg_do_nothing(self):
        for words in (("postinst", "abort-upgrade", "0.2.0"), ("prerm", "deconfigure"), ("postrm", "disappear")):
            self.assertEqual(self.calls(*words), [])

    def test_there_are_plain_fallbacks(self):
        self.remove(*HELPERS)
        made = ["getent passwd jentry", "groupadd --system --force jentry"]
        user = "useradd --system --gid jentry --comment jentry front --home-dir /nonexistent --no-create-home --shell /usr/sbin/nologin jentry"
        start = ["systemctl --system daemon-reload", f"systemctl start {SOCKET}"]
        self.assertEqual(self.calls("postinst", "configure", ""), [*made, user, f"systemctl enable {SOCKET}", *start])
        start.insert(1, f"systemctl try-restart {SERVICE}")
        self.assertEqual(self.calls("postinst", "configure", "0.2.0", account=OURS), [made[0], *start])
        self.assertEqual(self.calls("prerm", "remove"), [f"systemctl stop {SOCKET} {SERVICE}"])
        links = [f"{self.room}/etc/systemd/system/{it}.wants" for it in ("sockets.target", "multi-user.target")]
        for folder, unit in zip(links, (SOCKET, SERVICE)):
            os.makedirs(folder)
            os.symlink(f"/usr/lib/systemd/system/{unit}", f"{folder}/{unit}")
        self.calls("postrm", "purge")
        self.assertEqual([os.listdir(it) for it in links], [[], []])

    @unittest.skipUnless(shutil.which("shellcheck"), "there is no shellcheck (apt-get install shellcheck)")
    def test_shellcheck_finds_nothing(self):
        words = ["shellcheck", *(f"{tiny.TOP}/packaging/{name}" for name in SCRIPTS)]
        self.assertEqual(tiny.run(tiny.TOP, *words), ("", "", 0))


class Accounts(unittest.TestCase):
    @unittest.skipUnless(shutil.which("systemd-sysusers"), "there is no systemd-sysusers (apt-get install systemd)")
    def test_sysusers_makes_the_account_that_a_purge_knows(self):
        """The purge removes only an account with this home and this shell. A group of an earlier release is kept."""
        with tempfile.TemporaryDirectory() as room:
            shutil.copy(f"{tiny.TOP}/clients/front/jentry-front.sysusers", f"{room}/jentry-front.conf")
            tiny.write(f"{room}/etc/group", "jentry:x:990:deploy\n")
            words = ["systemd-sysusers", f"--root={room}", f"{room}/jentry-front.conf"]
            for _ in range(2):
                self.assertEqual(tiny.run(room, *words)[2], 0)
                account = text_of(f"{room}/etc/passwd").strip()
                self.assertRegex(account, r"^jentry:x:\d+:990:jentry front:/nonexistent:/usr/sbin/nologin$")
            self.assertEqual(text_of(f"{room}/etc/group"), "jentry:x:990:deploy\n")

    def test_the_units_run_as_the_account(self):
        service, socket = (text_of(f"{tiny.TOP}/clients/front/{it}") for it in (SERVICE, SOCKET))
        for line in ("User=jentry", "Group=jentry", "LogsDirectory=jentry"):
            self.assertIn(f"\n{line}\n", service)
        self.assertIn("\nSocketGroup=jentry\n", socket)


@unittest.skipUnless(shutil.which("systemd-analyze"), "there is no systemd-analyze (apt-get install systemd)")
class Exposure(unittest.TestCase):
    def test_systemd_counts_the_service_as_little_exposed(self):
        """Of 10 points, from which each setting that is missing leaves its own."""
        with tempfile.TemporaryDirectory() as room:
            unit = re.sub(
                r"/usr/local/bin/[\w-]+", shutil.which("true"), text_of(f"{tiny.TOP}/clients/front/{SERVICE}")
            )
            tiny.write(f"{room}/{SERVICE}", unit)
            words = ["systemd-analyze", "security", "--offline=true", "--no-pager", f"{room}/{SERVICE}"]
            output, errors, status = tiny.run(room, *words)
            self.assertEqual((errors, status), ("", 0))
            (points,) = re.findall(rf"Overall exposure level for {SERVICE}: ([\d.]+) ", output)
            self.assertLessEqual(float(points), EXPOSURE)


@released.NEEDED
class Files(unittest.TestCase):
    def test_the_package_has_the_scripts_and_the_settings(self):
        (package,) = glob.glob(f"{released.folders()[0]}/jentry_*.deb")
        with tempfile.TemporaryDirectory() as room:
            subprocess.run(["dpkg-deb", "-R", package, room], check=True)
            for name in SCRIPTS:
                self.assertEqual(text_of(f"{room}/DEBIAN/{name}"), text_of(f"{tiny.TOP}/packaging/{name}"))
                self.assertTrue(os.access(f"{room}/DEBIAN/{name}", os.X_OK), name)
            (settings,) = text_of(f"{room}/DEBIAN/conffiles").split()
            unit = text_of(f"{room}/usr/lib/systemd/system/{SERVICE}")
            self.assertIn(f"\nEnvironmentFile=-{settings}\n", unit)
            self.assertEqual(re.findall(r"(?m)^[^#\n].*$", text_of(room + settings)), ["JENTRY_FRONT_OPTIONS="])
            commands = re.search(r"(?m)^ExecStart=(\S+) .* (\S+) serve$", unit).groups()
            self.assertTrue(all(os.access(room + command, os.X_OK) for command in commands), commands)


if __name__ == "__main__":
    unittest.main()
