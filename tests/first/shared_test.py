"""The releases in CHANGELOG.md, the comparison of a program with the newest one, and the kit that the pages name."""
import hashlib
import re
import subprocess
import tempfile
import unittest

from shared import KIT_LOGIC, TOP, compare_with_release, kit_folder, load_script, newest_release, no_kit, text_of

CHANGELOG = """# Changelog

## Unreleased

- something

## 0.2.0 (2026-12-01)

- more
- program sha256 {newest}

## 0.1.0 (2026-11-28)

- program sha256 {oldest}
"""


class Releases(unittest.TestCase):
    def test_the_newest_built_release_is_compared(self):
        newest, oldest = (hashlib.sha256(it).hexdigest() for it in (b"newest", b"oldest"))
        changelog = CHANGELOG.format(newest=newest, oldest=oldest)
        self.assertEqual(newest_release(changelog), ("0.2.0", newest))
        self.assertEqual(
            newest_release(CHANGELOG.replace("- program sha256 {newest}\n", "").format(oldest=oldest)),
            ("0.1.0", oldest),
        )
        with tempfile.TemporaryDirectory() as folder:
            for text, wanted in (
                (b"newest", "it is the program of release 0.2.0"),
                (b"oldest", f"it is not the program of release 0.2.0 (sha256 {oldest} here, {newest} there)"),
            ):
                with open(f"{folder}/jentry", "wb") as it:
                    it.write(text)
                self.assertEqual(compare_with_release(f"{folder}/jentry", changelog), wanted)

    def test_no_release_is_no_comparison(self):
        self.assertIsNone(newest_release("# Changelog\n\n## Unreleased\n\n- something\n"))
        self.assertIn("no built release", compare_with_release("absent", "# Changelog\n"))

    def test_the_changelog_has_one_section_for_what_is_not_released(self):
        self.assertEqual(re.findall(r"(?m)^## (.*)$", text_of(f"{TOP}/CHANGELOG.md"))[0], "Unreleased")


class Kits(unittest.TestCase):
    def test_pages_name_the_logic_of_the_kits(self):
        """Kits of one logic have several names, so no page names a kit."""
        for page in ("README.md", "CONTRIBUTING.md"):
            text = text_of(f"{TOP}/{page}")
            self.assertEqual(re.findall(r"`rt version` ends with `logic (\w+)`", text), [KIT_LOGIC], page)
            self.assertNotRegex(text, r"rattle-kit-\d")

    @unittest.skipIf(kit_folder() is None, "there is no kit")
    def test_the_kit_here_has_this_logic(self):
        version = subprocess.run(["rt", "version"], capture_output=True, text=True, check=True).stdout
        self.assertEqual(version.split()[-2:], ["logic", KIT_LOGIC])


class Parts(unittest.TestCase):
    def test_all_parts_have_one_version(self):
        """The jar's version ends in -SNAPSHOT until it is released."""
        version = text_of(f"{TOP}/packaging/version").strip()
        self.assertRegex(version, r"^\d+\.\d+\.\d+$")
        parts = load_script("release").PARTS
        self.assertGreater(len(parts), 7)
        found = {file: re.search(pattern, text_of(f"{TOP}/{file}")) for file, pattern in parts.items()}
        self.assertEqual({file: it and it[1] for file, it in found.items()}, dict.fromkeys(parts, version))

    def test_the_version_is_newer_than_the_releases(self):
        version = text_of(f"{TOP}/packaging/version").strip()
        newest = newest_release(text_of(f"{TOP}/CHANGELOG.md"))
        numbers = [tuple(map(int, it.split("."))) for it in (newest[0] if newest else "0.1.0", version)]
        self.assertLessEqual(*numbers)


class Readers(unittest.TestCase):
    """Nobody is sent to a release that isn't there."""

    def test_readme_says_whether_there_is_a_release(self):
        is_none = newest_release(text_of(f"{TOP}/CHANGELOG.md")) is None
        readme = text_of(f"{TOP}/README.md")
        self.assertEqual("There is no built release yet." in readme, is_none)
        self.assertEqual(bool(re.search(r"(?i)built release(?! yet)", readme)), not is_none)

    def test_a_machine_without_a_kit_is_sent_to_a_release_if_there_is_one(self):
        self.assertNotIn("release", no_kit("# Changelog\n\n## Unreleased\n\n- something\n"))
        changelog = f"# Changelog\n\n## 0.2.0 (2026-12-01)\n\n- program sha256 {64 * '0'}\n"
        self.assertIn("; release 0.2.0, a jentry_0.2.0_amd64.deb and a .tar.xz, needs none", no_kit(changelog))
