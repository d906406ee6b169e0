"""A container with a systemd of its own, for tests of units and packages. It needs root, systemd-nspawn and nsenter.

Its /usr and dpkg's database are those of this machine, below folders for what changes; /etc has the accounts and the settings of dpkg and of the
linker, and no unit is enabled. Its network is its own."""
import os
import shutil
import subprocess
import tempfile
import time
import unittest
import uuid

from packages import need
from running import PATIENCE

FOLDERS = (
    "root",
    "run",
    "tmp",
    "proc",
    "sys",
    "dev",
    "usr",
    "home",
    "var/lib/dpkg",
    "var/log",
    "var/tmp",
    "etc/systemd/system",
)
COPIED = (
    *("alternatives", "debconf.conf", "dpkg", "group", "ld.so.cache", "ld.so.conf", "ld.so.conf.d", "login.defs"),
    *("nsswitch.conf", "os-release", "pam.conf", "pam.d", "passwd", "perl", "security", "shadow"),
)
"""What is copied from /etc."""
MERGED = ("bin", "sbin", "lib", "lib32", "lib64", "libx32")
UNIFIED = {"SYSTEMD_NSPAWN_UNIFIED_HIERARCHY": "1"}
"""With the older control groups a systemd in a container doesn't learn that a service's last process has ended."""
BOOTS = 60
"""The seconds that a container has to boot, or to halt."""


def copy(name, to):
    """Copies a file or a folder of /etc, if it is there. A link to a file becomes a file."""
    source = os.path.join("/etc", name)
    if os.path.isdir(source):
        shutil.copytree(source, to, symlinks=True)
    elif os.path.exists(source):
        shutil.copy2(source, to)


class Container:
    """A container, until `end`. `boot` starts it, also again after `halt`."""

    def __init__(self):
        if os.geteuid() != 0:
            raise unittest.SkipTest("only root can start a container")
        if not os.path.islink("/bin"):
            raise unittest.SkipTest("/bin is no link to /usr/bin, as the container needs it")
        need(
            **{
                "systemd-nspawn": "systemd-container",
                "nsenter": "util-linux",
                "setpriv": "util-linux",
                "dpkg-deb": "dpkg",
            }
        )
        self._folder = tempfile.TemporaryDirectory(prefix="jentry-container-")
        self.root = os.path.join(self._folder.name, "root")
        self._name = f"jentry-{os.path.basename(self._folder.name)[-8:].strip('_').replace('_', '0')}"
        self._log = os.path.join(self._folder.name, "log")
        self._process, self._leader = None, None
        self._make_root()

    def _make_root(self):
        for name in (*FOLDERS, "../usr", "../dpkg"):
            os.makedirs(os.path.join(self.root, name))
        for name in MERGED:
            if os.path.isdir(os.path.join("/usr", name)):
                os.symlink(os.path.join("usr", name), os.path.join(self.root, name))
        for name in COPIED:
            copy(name, os.path.join(self.root, "etc", name))
        # With an id it isn't the first boot, at which systemd enables all units that there are.
        self.write("etc/machine-id", uuid.uuid4().hex + "\n")
        # This machine may forbid packages to start services.
        self.write("../usr/sbin/policy-rc.d", "#!/bin/sh\nexit 0\n", 0o755)

    def write(self, path, text, mode=0o644):
        """Writes a file below the root of a container that doesn't run, or into /etc or /root of one that does."""
        to = os.path.join(self.root, path)
        os.makedirs(os.path.dirname(to), exist_ok=True)
        with open(to, "w", encoding="utf-8") as file:
            file.write(text)
        os.chmod(to, mode)

    def put(self, path, to):
        """Copies a file into the container."""
        shutil.copy(path, os.path.join(self.root, to))

    def boot(self):
        """Boots the container. Skips the test if that is impossible here."""
        folder = self._folder.name
        # A test that is killed takes its container with it.
        words = ["setpriv", "--pdeathsig=TERM", "systemd-nspawn"]
        words += [f"--directory={self.root}", f"--machine={self._name}"]
        words += [f"--overlay=/usr:{folder}/usr:/usr", f"--overlay=/var/lib/dpkg:{folder}/dpkg:/var/lib/dpkg"]
        words += ["--private-network", "--register=no", "--keep-unit", "--console=pipe", "--boot"]
        with open(self._log, "w", encoding="utf-8") as log:
            self._process = subprocess.Popen(
                words, stdin=subprocess.DEVNULL, stdout=log, stderr=subprocess.STDOUT, env={**os.environ, **UNIFIED}
            )
        deadline = time.monotonic() + BOOTS
        while time.monotonic() < deadline and self._process.poll() is None:
            self._leader = self._child()
            if self._leader and self.run("systemctl", "is-system-running").stdout.strip() in ("running", "degraded"):
                return
            time.sleep(0.2)
        with open(self._log, encoding="utf-8", errors="replace") as log:
            why = " ".join(log.read().split()) or "it says nothing"
        self.halt()
        raise unittest.SkipTest(f"no container boots here (systemd-nspawn: {why[-300:]})")

    def _child(self):
        with open(f"/proc/{self._process.pid}/task/{self._process.pid}/children", encoding="utf-8") as children:
            found = children.read().split()
        return int(found[-1]) if found else None

    def run(self, *words, check=False):
        """Runs a command in the container. Returns its status and its output."""
        told = subprocess.run(
            ["nsenter", f"--target={self._leader}", "--all", "--", *words],
            stdin=subprocess.DEVNULL,
            stdout=subprocess.PIPE,
            stderr=subprocess.STDOUT,
            text=True,
            timeout=2 * PATIENCE,
            check=False,
            env={"PATH": "/usr/sbin:/usr/bin", "DEBIAN_FRONTEND": "noninteractive", "LC_ALL": "C.UTF-8"},
        )
        if check and told.returncode:
            raise AssertionError(f"{' '.join(words)}: status {told.returncode}\n{told.stdout}")
        return told

    def path(self, path):
        """Returns the path by which this process reaches a file of the container that runs."""
        return f"/proc/{self._leader}/root{path}"

    def halt(self):
        """Shuts the container down, if it runs."""
        if self._process is None:
            return
        self._process.terminate()
        try:
            self._process.wait(BOOTS)
        except subprocess.TimeoutExpired:
            self._process.kill()
            self._process.wait()
        self._process, self._leader = None, None

    def end(self):
        """Shuts the container down and removes what it was."""
        self.halt()
        shutil.rmtree(f"/run/systemd/nspawn/propagate/{self._name}", ignore_errors=True)
        self._folder.cleanup()
