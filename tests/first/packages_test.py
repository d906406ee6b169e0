"""The Debian packages: what lintian says of them, who maintains them, the manual pages of their commands, and the compiler's package."""
import glob
import gzip
import os
import re
import shutil
import subprocess
import tempfile
import unittest

import compiler_package
import core_packages
import released
import tiny
from shared import sum_of, text_of

CONTROLS = [text_of(f"{tiny.TOP}/packaging/control"), compiler_package.CONTROL, *core_packages.CONTROL.values()]
HELP = re.compile(r"^ +(?:-\w, )?--([a-z-]+)(?: <(.*)>)? {2,}(.*)$", re.MULTILINE)
"""An option of --help: its name, what stands for its value, and what it does."""


def lint(path):
    """Returns what lintian reports of a package: errors and warnings, a line each."""
    words = ["lintian", "--allow-root", "--fail-on", "none", path]
    return subprocess.run(words, stdout=subprocess.PIPE, stderr=subprocess.STDOUT, text=True, check=True).stdout


def options_of_help(text):
    """Returns the options in a text of --help: the value and the default of each, None where there is none."""
    defaults = {name: re.search(r"\[default: (.*?)\]", words) for name, _, words in HELP.findall(text)}
    return {
        name: (re.sub(r"[][]", "", value) or None, defaults[name] and defaults[name][1])
        for name, value, _ in HELP.findall(text)
    }


def options_of_page(text):
    """Returns the options in a manual page: the value of each, None where there is none, and its paragraph."""
    found = {}
    for item in re.sub(r"\\f.", "", text).replace("\\-", "-").split("\n.TP\n")[1:]:
        head, _, words = item.partition("\n")
        name = re.search(r"--([a-z-]+)", head)
        if name:
            value = re.sub(r'[][" ]', "", head[name.end() :])
            found[name[1]] = (value or None, words)
    return found


class Texts(unittest.TestCase):
    def test_all_packages_have_the_maintainer_of_one_file(self):
        self.assertEqual(len(CONTROLS), 4)
        for control in CONTROLS:
            self.assertEqual(re.findall(r"(?m)^Maintainer: (.*)$", control), ["@MAINTAINER@"])
        self.assertRegex(text_of(f"{tiny.TOP}/packaging/maintainer"), r"^[^<>\n]+ <[^<>@\s]+@[\w-]+(\.[\w-]+)+>\n$")

    def test_each_override_of_lintian_has_a_reason(self):
        files = glob.glob(f"{tiny.TOP}/packaging/*.lintian-overrides")
        self.assertGreater(len(files), 1)
        for file in files:
            package = os.path.basename(file).split(".")[0]
            reason = ""
            for line in text_of(file).splitlines():
                if line.startswith("#"):
                    reason = line
                    continue
                self.assertGreater(len(reason.split()), 5, line)
                self.assertRegex(line, rf"^{package}: [a-z-]+ \S")


@unittest.skipUnless(shutil.which("lintian"), "there is no lintian (apt-get install lintian)")
@released.NEEDED
class Packages(unittest.TestCase):
    def test_lintian_reports_nothing(self):
        packages = glob.glob(f"{released.folders()[0]}/*.deb")
        self.assertTrue(packages)
        for path in packages:
            self.assertEqual(lint(path), "", path)


class Unpacked(unittest.TestCase):
    """Tests on the files of a package."""

    def unpack(self, name):
        """Returns a folder with the files of a package."""
        room = tempfile.TemporaryDirectory()
        self.addCleanup(room.cleanup)
        (package,) = glob.glob(f"{released.folders()[0]}/{name}_*.deb")
        subprocess.run(["dpkg-deb", "-x", package, room.name], check=True)
        return room.name

    def page(self, root, name):
        """Returns the text of a manual page, which has the version of the release."""
        with gzip.open(f"{root}/usr/share/man/man1/{name}.1.gz", "rt", encoding="utf-8") as it:
            page = it.read()
        self.assertIn(f'"jentry {released.VERSION}+not.proved" "User Commands"', page)
        return page


@released.NEEDED
class Manuals(Unpacked):
    def test_the_page_of_the_front_has_the_options_of_its_help(self):
        root = self.unpack("jentry")
        output, errors, status = tiny.run(root, f"{root}/usr/bin/jentry-front", "--help")
        page = self.page(root, "jentry-front")
        self.assertEqual((errors, status), ("", 0))
        asked, written = options_of_help(output), options_of_page(page)
        self.assertGreater(len(asked), 25)
        self.assertEqual({name: it[0] for name, it in asked.items()}, {name: it[0] for name, it in written.items()})
        for name, (_, default) in asked.items():
            if default:
                words = written[name][1]
                self.assertRegex(words, rf'\({default}\)|\b{default} " \(the default\)', name)

    def test_the_page_of_the_compiler_has_the_options_of_its_help(self):
        root = self.unpack("jentry-compile")
        output, errors, status = tiny.run(root, f"{root}/usr/bin/jentry-compile", "--help")
        self.assertEqual((errors, status), ("", 0))
        asked = {
            name for line in re.findall(r"(?m)^  (--.*?)(?:  |$)", output) for name in re.findall(r"--([a-z]+)", line)
        }
        self.assertLessEqual({"explain", "compare", "help", "version"}, asked)
        self.assertEqual(asked, set(options_of_page(self.page(root, "jentry-compile"))))


@released.NEEDED
class Compiler(Unpacked):
    def test_the_command_and_the_plugin_compile_a_loop(self):
        """The command is also called by a link from elsewhere, such as /usr/local/bin."""
        root = self.unpack("jentry-compile")
        jar = f"{root}/usr/{compiler_package.JAR}"
        api = glob.glob(f"{tiny.TOP}/examples/api/**/*.java", recursive=True)
        source = f"{tiny.TOP}/clients/compiler/processors/SumOfAll.java"
        plugin = [f"-Xplugin:jentry {root}/classes", "-processorpath", jar]
        for words in (["-d", f"{root}/api", *api], [*plugin, "-cp", f"{root}/api", "-d", f"{root}/classes", source]):
            self.assertEqual(tiny.run(root, "javac", *words)[1:], ("", 0))
        os.symlink(f"{root}/usr/bin/jentry-compile", f"{root}/link")
        self.assertEqual(tiny.run(root, f"{root}/link", "--version")[0], f"jentry-compile {released.VERSION}\n")
        words = [
            f"{root}/link",
            f"{root}/classes",
            "-d",
            f"{root}/accepted",
            "--check",
            "--program",
            released.program(),
        ]
        self.assertEqual(tiny.run(root, *words)[1:], ("", 0))
        for folder, status in (("classes", 2), ("accepted", 0)):
            words = [released.program(), "check", f"{root}/{folder}/SumOfAll.class"]
            self.assertEqual(tiny.run(root, *words)[2], status, folder)

    def test_it_has_the_licence_of_asm_and_says_what_is_in_it(self):
        root = self.unpack("jentry-compile")
        documents = f"{root}/usr/share/doc/jentry-compile"
        legal = " ".join(text_of(f"{documents}/copyright").replace("\n .\n", "\n").split())
        notice = text_of(f"{tiny.TOP}/clients/compiler/LICENSE-asm").partition("\n\n")[2]
        authors, _, terms = notice.partition("\n\n")
        self.assertTrue(authors and terms)
        self.assertIn(" ".join(terms.split()), legal)
        for author in authors.splitlines():
            self.assertIn(author.replace("Copyright ", ""), legal)
        said = text_of(f"{documents}/RELEASE")
        self.assertIn(f"sha256 {sum_of(f'{root}/usr/{compiler_package.JAR}')}\n", said)
        self.assertEqual("goal for Maven: yes" in said, os.path.exists(f"{documents}/pom.xml"))


if __name__ == "__main__":
    unittest.main()
