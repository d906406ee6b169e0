"""The packages jentry-redis and libjentry-dev: the same bytes in all folders, a module that a redis-server loads, and a library that C links."""
import glob
import os
import shutil
import socket
import subprocess
import tempfile
import time
import unittest

import core_packages
import tiny
from shared import load_script, sum_of

SAID = {"version": "1.2.3", "commit": "c", "kit": "k", "verdict": "NOT PROVED", "seconds": 1_000_000_000}
PATIENCE = 60


def library():
    """Returns the core's library, or None."""
    found = os.path.abspath(os.environ.get("JENTRY_EMBED", load_script("release").LIBRARY))
    return found if os.path.isfile(found) else None


class Libraries(unittest.TestCase):
    def test_a_library_that_the_gate_did_not_build_is_refused(self):
        release = load_script("release")
        for said in ({}, {"library": None}, {"library": "0" * 64}):
            with self.assertRaisesRegex(release.Refused, "isn't the library that the gate built: run bin/test"):
                release.library_of(None, said)


def ask(port, *words):
    """Sends a command to a server, and returns the first bytes of its reply."""
    words = [word if isinstance(word, bytes) else word.encode() for word in words]
    with socket.create_connection(("127.0.0.1", port), PATIENCE) as line:
        line.sendall(b"*%d\r\n" % len(words) + b"".join(b"$%d\r\n%s\r\n" % (len(word), word) for word in words))
        return line.recv(4096)


@unittest.skipUnless(library(), "there is no core's library to pack (bin/rt lib in crates/embed)")
@unittest.skipUnless(
    all(map(shutil.which, ("cargo", "make", "cc", "dpkg-deb"))),
    "it needs cargo, make, cc and dpkg-deb (apt-get install cargo build-essential dpkg)",
)
class CorePackages(unittest.TestCase):
    @classmethod
    def setUpClass(cls):
        room = tempfile.TemporaryDirectory()
        cls.addClassCleanup(room.cleanup)
        cls.room, cls.made = room.name, []
        for name in ("one", "another/with/a/longer/path"):
            os.makedirs(f"{cls.room}/{name}/built")
            cls.made.append(core_packages.make(f"{cls.room}/{name}", library(), SAID, f"{cls.room}/{name}/built"))
        cls.root = f"{cls.room}/root"
        for package in cls.made[0]:
            subprocess.run(["dpkg-deb", "-x", package, cls.root], check=True)

    def test_two_folders_give_the_same_bytes(self):
        names = [[os.path.basename(path) for path in made] for made in self.made]
        self.assertEqual(names, [["jentry-redis_1.2.3_amd64.deb", "libjentry-dev_1.2.3_amd64.deb"]] * 2)
        for paths in zip(*self.made):
            self.assertEqual(*map(sum_of, paths))

    def test_each_says_what_it_is(self):
        for path in self.made[0]:
            name = os.path.basename(path).split("_")[0]
            told = subprocess.run(["dpkg-deb", "-f", path], capture_output=True, text=True, check=True).stdout
            self.assertIn(f"Package: {name}\nSource: jentry\nVersion: 1.2.3\n", told)
            self.assertRegex(told, r"\nInstalled-Size: [1-9]\d*\n")
            with open(f"{self.root}/usr/share/doc/{name}/RELEASE", encoding="utf-8") as it:
                self.assertIn(f"verdict NOT PROVED\nlibembed.a sha256 {sum_of(library())}\n", it.read())
            self.assertTrue(os.path.exists(f"{self.root}/usr/share/doc/{name}/copyright"))

    @unittest.skipUnless(shutil.which("lintian"), "there is no lintian (apt-get install lintian)")
    def test_lintian_reports_nothing(self):
        for path in self.made[0]:
            words = ["lintian", "--allow-root", "--fail-on", "none", path]
            told = subprocess.run(words, stdout=subprocess.PIPE, stderr=subprocess.STDOUT, text=True, check=True)
            self.assertEqual(told.stdout, "", path)

    @unittest.skipUnless(shutil.which("redis-server"), "there is no redis-server (apt-get install redis-server)")
    def test_a_server_loads_the_module_by_one_line(self):
        with socket.socket() as tried:
            tried.bind(("127.0.0.1", 0))
            port = tried.getsockname()[1]
        configuration = f"{self.room}/redis.conf"
        tiny.write(
            configuration,
            f'port {port}\nbind 127.0.0.1\nsave ""\nloadmodule {self.root}/{"usr/" + core_packages.MODULE}\n',
        )
        with open(f"{tiny.TOP}/examples/Plus.class", "rb") as it:
            plus = it.read()
        with subprocess.Popen(["redis-server", configuration], stdout=subprocess.DEVNULL, cwd=self.room) as server:
            try:
                until = time.monotonic() + PATIENCE
                while time.monotonic() < until and server.poll() is None:
                    try:
                        ask(port, "PING")
                        break
                    except OSError:
                        time.sleep(0.05)
                digits = ask(port, "JENTRY.DEFINE", plus).split(b"\r\n")[2]
                ask(port, "SET", "v:7", "41")
                self.assertEqual(ask(port, "JENTRY.INVOKE", digits, "v:7"), b":42\r\n")
            finally:
                server.kill()

    def test_a_program_in_c_links_the_library(self):
        example = f"{self.root}/usr/share/doc/libjentry-dev/example.c"
        words = ["cc", example, f"-I{self.root}/usr/include", f"-L{self.root}/usr/lib"]
        for name, rest in (("shared", ["-ljentry"]), ("static", ["-l:libjentry.a"])):
            subprocess.run([*words, "-o", f"{self.room}/{name}", *rest], check=True)
            where = {"LD_LIBRARY_PATH": f"{self.root}/usr/lib"} if name == "shared" else {}
            told = tiny.run(self.room, f"{self.room}/{name}", f"{tiny.TOP}/examples/Plus.class", "7", "41", **where)
            self.assertEqual((told[1], told[2]), ("", 0), told)
            self.assertIn("42", told[0])
        self.assertEqual(len(glob.glob(f"{self.root}/usr/lib/pkgconfig/jentry.pc")), 1)


if __name__ == "__main__":
    unittest.main()
