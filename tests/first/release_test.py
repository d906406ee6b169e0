"""bin/release: what it refuses, that all builds give the same bytes, and that the Debian package runs in an empty root."""
import glob
import os
import shutil
import subprocess
import tarfile
import tempfile
import unittest

import released
import tiny
from packing import debian_changelog
from released import VERSION, program
from shared import load_script, sum_of, text_of

NAMES = [
    f"jentry-{VERSION}+not.proved.tar.xz",
    f"jentry_{VERSION}+not.proved_amd64.deb",
    f"jentry-compile_{VERSION}+not.proved_all.deb",
]
PLUS = "result 42\nvalue 42\nsteps 14 words 0\n"
NOTE = (
    "import sys; sys.path.insert(0, 'bin'); from shared import load_script; test = load_script('test'); "
    "test.note_passed(test.clean_commit(), '7 passed, 0 failed\\n')"
)


def commit(folder):
    for words in (["add", "-A"], ["-c", "user.name=t", "-c", "user.email=t@localhost", "commit", "-qm", "changed"]):
        subprocess.run(["git", "-C", folder, *words], check=True)


class Refusals(unittest.TestCase):
    def setUp(self):
        room = tempfile.TemporaryDirectory()
        self.addCleanup(room.cleanup)
        self.folder = f"{room.name}/tiny"
        tiny.make(self.folder)

    def refused(self, why):
        output, errors, status = tiny.run(self.folder, "bin/release", VERSION)
        self.assertEqual((output, status, os.path.exists(f"{self.folder}/out")), ("", 1, False))
        self.assertIn(why, errors)

    def test_each_step_that_is_missing_is_named(self):
        self.refused("the gate didn't pass on this commit here")
        built = f"{self.folder}/crates/jentry/out/jentry"
        tiny.write(built, "a program")
        subprocess.run(["python3", "-B", "-c", NOTE], cwd=self.folder, check=True)
        # With the note of bin/test, the next reason is the versions of the parts.
        self.refused(f"clients/front/Cargo.toml has version None, and not {VERSION}")
        for file in load_script("release").PARTS:
            tiny.write(f"{self.folder}/{file}", text_of(f"{tiny.TOP}/{file}"))
        self.refused("the files of this checkout differ from its commit")
        commit(self.folder)
        self.refused("the gate didn't pass on this commit here")
        subprocess.run(["python3", "-B", "-c", NOTE], cwd=self.folder, check=True)
        self.refused(f"CHANGELOG.md has no section for {VERSION}")
        tiny.write(built, "another program")
        self.refused("crates/jentry/out/jentry isn't the program that the gate built")

    def test_lines_of_another_form_are_answered(self):
        for words in ([], ["1.0"], ["v1.2.3"], [VERSION, "to", "more"]):
            output, errors, status = tiny.run(self.folder, "bin/release", *words)
            self.assertEqual((output, status), ("", 2))
            self.assertIn("usage: bin/release VERSION [FOLDER]", errors)


class Changelogs(unittest.TestCase):
    @unittest.skipUnless(
        shutil.which("dpkg-parsechangelog"), "there is no dpkg-parsechangelog (apt-get install dpkg-dev)"
    )
    def test_debians_tools_read_the_changelog(self):
        text = debian_changelog("1.2.3", 1_796_025_900)
        words = ["dpkg-parsechangelog", "-l-"]
        done = subprocess.run(words, input=text, stdout=subprocess.PIPE, stderr=subprocess.PIPE, text=True, check=True)
        self.assertEqual(done.stderr, "")
        fields = dict(line.split(": ", 1) for line in done.stdout.splitlines() if ": " in line)
        told = {name: fields[name] for name in ("Source", "Version", "Date")}
        self.assertEqual(told, {"Source": "jentry", "Version": "1.2.3", "Date": "Mon, 30 Nov 2026 08:05:00 +0000"})


class Commands(unittest.TestCase):
    def test_the_packaged_command_answers_help_and_version(self):
        """The command is where a release has it, beside a program that prints its own words and ends with status 9."""
        with tempfile.TemporaryDirectory() as room:
            command = f"{room}/bin/jentry"
            for path, text in (
                (command, load_script("release").packaged_command("1.2.3")),
                (f"{room}/lib/jentry/jentry", '#!/bin/sh\necho "$@"\nexit 9\n'),
            ):
                tiny.write(path, text)
                os.chmod(path, 0o755)
            usage = text_of(f"{tiny.TOP}/packaging/usage.txt")
            self.assertTrue(usage.startswith("usage: jentry check FILE "))
            for words, wanted in (
                (["--help"], (usage, "", 0)),
                (["run", "-h"], (usage, "", 0)),
                (["--version"], ("jentry 1.2.3\n", "", 0)),
                ([], ("", usage, 1)),
                (["check", "a  b"], ("check a  b\n", "", 9)),
                ([""], ("\n", "", 9)),
            ):
                self.assertEqual(tiny.run(room, command, *words), wanted, words)


@released.NEEDED
class Releases(unittest.TestCase):
    @classmethod
    def setUpClass(cls):
        cls.folders = released.folders()

    def test_two_folders_give_the_same_bytes(self):
        for folder in self.folders:
            self.assertEqual(sorted(os.listdir(folder)), sorted(NAMES))
        for name in NAMES:
            self.assertEqual(*(sum_of(f"{folder}/{name}") for folder in self.folders), name)

    def test_the_tarball_has_all_parts_and_says_what_it_is(self):
        with tarfile.open(f"{self.folders[0]}/{NAMES[0]}") as it:
            members = {member.name.partition("/")[2]: member for member in it.getmembers()}
            printed = it.extractfile(f"jentry-{VERSION}+not.proved/share/doc/jentry/RELEASE").read().decode()
            jar = it.extractfile(f"jentry-{VERSION}+not.proved/share/java/jentry-jcache.jar").read()
        for name in (
            "bin/jentry",
            "bin/jentry-front",
            "lib/jentry/jentry",
            "share/man/man1/jentry.1.gz",
            "share/doc/jentry/copyright",
            "share/doc/jentry/LICENSE",
            "share/doc/jentry/changelog.gz",
            "share/lintian/overrides/jentry",
            "lib/systemd/system/jentry-front.socket",
            "lib/systemd/system/jentry-front.service",
            "lib/sysusers.d/jentry-front.conf",
            "lib/python3/dist-packages/jentry/__init__.py",
            "lib/python3/dist-packages/jentry/py.typed",
            "lib/python3/dist-packages/jentry_aio/__init__.py",
            "lib/python3/dist-packages/jentry_processors/GetAndPut.class",
        ):
            self.assertIn(name, members)
        self.assertEqual(
            {(member.uid, member.gid, member.uname, member.gname) for member in members.values()}, {(0, 0, "", "")}
        )
        self.assertEqual(len({member.mtime for member in members.values()}), 1)
        self.assertEqual({oct(member.mode) for member in members.values()}, {"0o755", "0o644"})
        head = subprocess.run(
            ["git", "-C", os.path.dirname(self.folders[0]), "rev-parse", "HEAD"],
            capture_output=True,
            text=True,
            check=True,
        ).stdout.strip()
        self.assertIn(f"commit {head}, of ", printed)
        self.assertIn("verdict NOT PROVED", printed)
        self.assertIn(f"lib/jentry/jentry sha256 {sum_of(program())}\n", printed)
        self.assertTrue(jar.startswith(b"PK"))

    def test_the_tarball_runs_where_it_is_unpacked(self):
        with tempfile.TemporaryDirectory() as room:
            subprocess.run(["tar", "-C", room, "-xf", f"{self.folders[0]}/{NAMES[0]}"], check=True)
            (top,) = glob.glob(f"{room}/*")
            # A link from elsewhere, such as /usr/local/bin, works, too.
            os.symlink(f"{top}/bin/jentry", f"{room}/link")
            for command in (f"{top}/bin/jentry", f"{room}/link"):
                self.assertEqual(
                    tiny.run(room, command, "run", f"{top}/share/doc/jentry/examples/Plus.class", "7", "41"),
                    (PLUS, "", 0),
                )

    @unittest.skipUnless(
        os.geteuid() == 0 and shutil.which("apt-get"),
        "it needs root and apt-get, to fill an empty root with Debian's libc6 and dash",
    )
    def test_the_package_runs_in_an_empty_root(self):
        """The root has only Debian's libc6, libgcc-s1 and dash, and the package."""
        with tempfile.TemporaryDirectory() as room:
            os.chmod(room, 0o755)
            got = subprocess.run(
                ["apt-get", "download", "libc6", "libgcc-s1", "dash"],
                cwd=room,
                capture_output=True,
                text=True,
                check=False,
            )
            if got.returncode:
                self.skipTest(f"apt-get download libc6 libgcc-s1 dash failed: {got.stderr[-200:]}")
            packages = [*glob.glob(f"{room}/*.deb"), f"{self.folders[0]}/{NAMES[1]}"]
            self.assertEqual(len(packages), 4)
            for package in packages:
                subprocess.run(["dpkg-deb", "-x", package, f"{room}/root"], check=True)
            if not os.path.lexists(f"{room}/root/bin/sh"):
                os.symlink("dash", f"{room}/root/bin/sh")
            words = [
                "chroot",
                f"{room}/root",
                "/usr/bin/jentry",
                "run",
                "/usr/share/doc/jentry/examples/Plus.class",
                "7",
                "41",
            ]
            self.assertEqual(tiny.run(room, *words), (PLUS, "", 0))
            output, errors, status = tiny.run(room, "chroot", f"{room}/root", "/usr/bin/jentry-front")
            self.assertNotIn(status, (126, 127))
            self.assertIn("jentry-front", output + errors)
            fields = tiny.run(room, "dpkg-deb", "-f", packages[-1])[0]
            self.assertIn(f"Version: {VERSION}+not.proved\n", fields)
            self.assertIn("Depends: libc6 (>= 2.34)", fields)
