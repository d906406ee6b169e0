"""Pastes code blocks of the pages into a shell, as they are on the page.

The shell has namespaces of its own for mounts, the network and processes: a clone of this repository is its folder, /tmp, /run and /usr/local/bin
are empty, /etc is a copy, all ports are free, and what a block starts ends with the shell. What takes an hour is replaced: in the clone the program
is the one that is tested, or a stand-in. apt-get only looks whether the packages are installed, or reads the file of a package, and systemctl has
systemd read the units."""
import os
import re
import shutil
import subprocess
import tempfile
import unittest

from page import FENCE, TOP, text_of

PROGRAM = os.environ.get("JENTRY_PROGRAM")
PASTED = {
    "README.md": ["bin/jentry run examples/Plus.class 7 41", "apt-get install cargo redis-server"],
    "docs/CLIENTS.md": [
        "apt-get install default-jdk-headless libgeronimo-jcache-1.0-spec-java",
        "apt-get install cargo $(clients/front/cargo packages)",
        "PYTHONPATH=clients/python python3 - <<'END'",
        "install clients/front/target/release/jentry-front crates/jentry/out/jentry /usr/local/bin",
        "PYTHONPATH=clients/python python3 - <<'END'",
    ],
    "docs/REDIS.md": ["for port in 7001 7002 7003 7004 7005 7006; do"],
    "docs/OPERATIONS.md": [
        "jentry-front --unix /run/jentry.sock --http 9464 jentry serve",
        "JENTRY_FRONT_OPTIONS=",
        "[Service]",
        "apt-get install ./jentry_*_amd64.deb",
        "systemctl enable --now jentry-front.service",
        "apt-get remove jentry",
        "jentry-front ctl peers",
    ],
}
"""What the blocks begin with that blocks_test.py here and clients/tests/front_pages_test.py paste."""
COLOUR = re.compile(r"\x1b\[[\d;]*m")
LIMIT = 3600
NO_PACKAGE = 42
LOOPBACK_UP = "import fcntl, socket, struct; fcntl.ioctl(socket.socket(), 0x8914, struct.pack('16sH14x', b'lo', 0x41))"
"""Sets the flags (SIOCSIFFLAGS) of the interface `lo`: up and running."""
SETUP = """
python3 -c "$LOOPBACK_UP"
for folder in /mnt /run /usr/local/bin; do mount -t tmpfs none $folder; done
mkdir -p /mnt/jentry /mnt/bin /run/lock
cp -a /etc /mnt/etc
mount --bind /mnt/etc /etc
mount --bind "$CLONE" /mnt/jentry
if [ -n "$TARGET" ]; then mkdir /mnt/jentry/clients/front/target; mount --bind "$TARGET" /mnt/jentry/clients/front/target; fi
mount -t tmpfs none /tmp
printf '%s' "$APT_GET" >/mnt/bin/apt-get
printf '%s' "$SYSTEMCTL" >/mnt/bin/systemctl
chmod 755 /mnt/bin/*
export PATH=/mnt/bin:$PATH TMPDIR=/tmp
unset CARGO_TARGET_DIR JENTRY_EMBED
cd /mnt/jentry
exec bash -es
"""
APT_GET = f"""#!/bin/bash
case $* in
  'install ./'*.deb) dpkg-deb --field "$2" Package; exit ;;
  'remove jentry' | 'purge jentry') echo "$*"; exit ;;
esac
[ "$1" = install ] || exit 1
shift
for package in "$@"; do
  [ "$(dpkg-query -W -f '${{db:Status-Status}}' "$package" 2>/dev/null)" = installed ] || command -v "$package" >/dev/null || {{
    echo "there is no $package (apt-get install $package)"
    exit {NO_PACKAGE}
  }}
done
"""
SYSTEMCTL = """#!/bin/bash
case $* in
  daemon-reload) ;;
  'enable --now jentry-front.socket') systemd-analyze verify /etc/systemd/system/jentry-front.{socket,service} ;;
  'enable --now '* | 'restart '*) grep -l '^WantedBy=' "clients/front/${*: -1}" ;;
  *) exit 1 ;;
esac
"""
STAND_IN = """#!/bin/sh
echo 'result 42
value 42
steps 14 words 0'
"""
"""A program that runs the class Plus on the value 41."""


def blocks_of(page):
    """Returns the code blocks of a page."""
    return re.findall(rf"^{FENCE}\w*\n(.*?)^{FENCE}$", text_of(page), re.MULTILINE | re.DOTALL)


def block(page, number):
    """Returns the block of a page that begins with the words of this number in PASTED."""
    words = PASTED[page]
    found = [it for it in blocks_of(page) if it.startswith(words[number])]
    return found[words[:number].count(words[number])]


def has_namespaces():
    words = ["unshare", "--mount", "--net", "--pid", "--fork", "true"]
    return bool(shutil.which("unshare")) and not subprocess.run(words, stderr=subprocess.DEVNULL).returncode


@unittest.skipUnless(has_namespaces(), "it needs namespaces (root, and util-linux's unshare)")
class Pasting(unittest.TestCase):
    """Tests in a clone, with the program in its place."""

    def setUp(self):
        room = tempfile.TemporaryDirectory()
        self.addCleanup(room.cleanup)
        self.clone = f"{room.name}/jentry"
        subprocess.run(["git", "clone", "-q", TOP, self.clone], check=True)
        program = "crates/jentry/out/jentry"
        self.write(program, STAND_IN)
        if PROGRAM:
            shutil.copy(PROGRAM, f"{self.clone}/{program}")

    def write(self, path, text):
        """Writes a command into the clone."""
        os.makedirs(os.path.dirname(f"{self.clone}/{path}"), exist_ok=True)
        with open(f"{self.clone}/{path}", "w", encoding="utf-8") as it:
            it.write(text)
        os.chmod(f"{self.clone}/{path}", 0o755)

    def paste(self, *texts, target=""):
        """Pastes texts into a shell, one after the other. Returns what is printed. All commands have to succeed. `target` is a folder in which
        cargo has built the front already."""
        words = ["unshare", "--mount", "--net", "--pid", "--fork", "--kill-child", "--mount-proc", "bash", "-ec", SETUP]
        variables = {
            "CLONE": self.clone,
            "TARGET": target,
            "APT_GET": APT_GET,
            "SYSTEMCTL": SYSTEMCTL,
            "LOOPBACK_UP": LOOPBACK_UP,
        }
        how = {"stdout": subprocess.PIPE, "stderr": subprocess.STDOUT, "text": True}
        ran = subprocess.run(words, input="".join(texts), env={**os.environ, **variables}, timeout=LIMIT, **how)
        if ran.returncode == NO_PACKAGE:
            self.skipTest(ran.stdout.splitlines()[-1])
        self.assertEqual(ran.returncode, 0, ran.stdout)
        return COLOUR.sub("", ran.stdout)
