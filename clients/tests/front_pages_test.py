#!/usr/bin/env python3
"""front_pages_test: the code blocks of CLIENTS and OPERATIONS that build, start, share and install the front, pasted into a shell
(tests/pages/pasting.py). running.py has the requirements."""
import os
import shutil
import sys
import unittest

from running import FRONT, HERE, PROGRAM

# It goes last, like the folder that running.py names.
sys.path.append(os.path.join(HERE, "../../tests/pages"))
from pasting import Pasting, block

CLIENTS, OPERATIONS = "docs/CLIENTS.md", "docs/OPERATIONS.md"
LISTENS = "timeout 60 sh -c 'until [ -S {} ]; do sleep 0.1; done'\n"
METRICS = "import urllib.request; print(urllib.request.urlopen('http://127.0.0.1:9464/metrics').read().decode())"
UP = f'for try in $(seq 600); do python3 -c "{METRICS}" 2>&1 | grep -x "jentry_server_up 1" && break; sleep 0.1; done\n'
OPTIONS = """kill $!
wait $! || true
cat >/etc/default/jentry-front <<'END'
{}END
echo deploy:x:6390:6390::/:/bin/false >>/etc/passwd
mkdir /run/jentry-front
jentry-front --unix /run/again.sock --control /run/jentry-front/control $(sed -n s/^JENTRY_FRONT_OPTIONS=//p /etc/default/jentry-front) jentry serve &
"""
"""Ends the front that runs, and starts another with the options of the page's file, and with the user whom it names."""
SETTINGS = "mkdir /etc/systemd/system/jentry-front.service.d\ncat >/etc/systemd/system/jentry-front.service.d/a.conf <<'END'\n{}END\n"
PACKAGE = """
mkdir -p /tmp/package/usr/bin
cp -r --parents /usr/lib/systemd/system /etc/systemd/system /tmp/package
sed -i s,/usr/local/bin/,/usr/bin/,g /tmp/package/etc/systemd/system/jentry-front.service
mv /usr/local/bin/* /tmp/package/usr/bin
systemd-analyze verify --root=/tmp/package jentry-front.service
echo read in the package
"""


@unittest.skipUnless(PROGRAM, "there is no program (bin/build makes it)")
class Pages(Pasting):
    @unittest.skipUnless(shutil.which("systemd-analyze"), "it needs systemd-analyze (apt-get install systemd)")
    def test_the_front_is_built_shared_and_installed(self):
        """Two clients share the front, both programs are installed and started by their names, also with the options of OPERATIONS.

        An operator asks the front. Systemd reads the units, with the settings of OPERATIONS too, and as bin/release puts them into the package.
        """
        told = self.paste(
            block(CLIENTS, 1),
            LISTENS.format("/tmp/jentry.sock"),
            block(CLIENTS, 2),
            block(CLIENTS, 3),
            block(OPERATIONS, 0).rstrip("\n") + " &\n",
            LISTENS.format("/run/jentry.sock"),
            UP,
            OPTIONS.format(block(OPERATIONS, 1)),
            LISTENS.format("/run/again.sock"),
            UP,
            block(OPERATIONS, 6),
            SETTINGS.format(block(OPERATIONS, 2)),
            "systemctl enable --now jentry-front.socket\necho read with the settings\n",
            PACKAGE,
            target=os.path.dirname(os.path.dirname(FRONT)),
        )
        self.assertIn("listening on /tmp/jentry.sock\n", told)
        self.assertIn("\n41 False\n", told)
        self.assertEqual(told.count("\njentry_server_up 1\n"), 2, told)
        self.assertIn("\njentry_server_up 1\nPEER  CONNECTIONS  CLASSES  WAITING-STEPS\nNUMBER  ID ", told)
        self.assertIn("\npeer-classes       128\n", told)
        self.assertTrue(told.endswith("\nread with the settings\nread in the package\n"), told)


if __name__ == "__main__":
    unittest.main()
