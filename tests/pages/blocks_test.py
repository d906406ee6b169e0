"""The code blocks of README.md, CLIENTS, REDIS and OPERATIONS, pasted into a shell. Those that need the front are in
clients/tests/front_pages_test.py, which has one."""
import hashlib
import os
import shutil
import unittest

from page import TOP
from pasting import PASTED, PROGRAM, Pasting, block, blocks_of

ELSEWHERE = {
    "docs/REDIS.md": ["$ redis-cli -x JENTRY.DEFINE < examples/Add.class", "ACL SETUSER"],
    "docs/OPERATIONS.md": ["global:", "groups:"],
}
"""What those begin with that clients/redis/tests/page_test.py and clients/tests/prometheus_test.py try."""
OUTPUTS = {"README.md": ["result 42"], "docs/OPERATIONS.md": ["2026-11-28T12:00:00Z INFO  jentry-front: listening"]}
"""What blocks begin with that show an output."""
CORE = r"""
#include <string.h>
#include "jentry.h"
static const uint8_t id[20] = { %s };
static uint32_t count;
uint32_t jentry_open(struct jentry_handle *handle) { handle->open = true; return 0; }
void jentry_close(struct jentry_handle *handle) { handle->open = false; }
void jentry_define(struct jentry_handle *handle, const uint8_t *bytes, size_t length, struct jentry_verdict *verdict) {
    (void)handle, (void)bytes, (void)length;
    *verdict = (struct jentry_verdict){ .number = count++, .steps = 29, .slots = 17, .depth = 2 };
    memcpy(verdict->id, id, sizeof id);
}
uint32_t jentry_forget(struct jentry_handle *handle, uint32_t number) { (void)handle; return number < count; }
void jentry_invoke(struct jentry_handle *handle, const struct jentry_call *call, const struct jentry_arg *args, size_t length,
                   struct jentry_done *done) {
    (void)handle, (void)length;
    int64_t sum = (call->present ? call->before : 0) + args[0].value;
    *done = (struct jentry_done){ .outcome = JENTRY_LONG, .effect = JENTRY_PUT, .value = sum, .put = sum, .steps = 29, .left = JENTRY_SET };
}
size_t jentry_text(struct jentry_handle *handle, uint32_t number, uint32_t index, uint8_t *text, size_t room) {
    (void)handle, (void)number, (void)index, (void)text, (void)room;
    return 0;
}
size_t jentry_explain(const uint8_t *bytes, size_t length, uint8_t *text, size_t room) {
    (void)bytes, (void)length, (void)text, (void)room;
    return 0;
}
"""
"""A core that takes every class for Add, and keeps nothing of its own."""
ADD = "db18bbb1eb349c40ee30a89dca5bdf4a32619bff\n29\n0\n17\n2\n1\n"
"""What the definition of Add and its first run print to a pipe."""


class Blocks(Pasting):
    def test_each_block_is_pasted_or_shows_an_output(self):
        for page, words in PASTED.items():
            wanted = sorted([*words, *ELSEWHERE.get(page, []), *OUTPUTS.get(page, [])])
            found = sorted(
                next((it for it in wanted if text.startswith(it)), text.partition("\n")[0]) for text in blocks_of(page)
            )
            self.assertEqual(found, wanted, page)

    def test_readme_runs_a_class(self):
        self.assertTrue(self.paste(block("README.md", 0)).endswith("result 42\nvalue 42\nsteps 14 words 0\n"))

    def make_core(self):
        """Has bin/build of the clone make a stand-in for the core, instead of half an hour's proof."""
        with open(f"{TOP}/examples/Add.class", "rb") as file:
            self.write("core.c", CORE % ", ".join(map(str, hashlib.sha1(file.read()).digest())))
        to, words = "crates/embed/out", "cc -O2 -fPIC -Wall -Werror -Iclients/c -c core.c -o core.o"
        self.write(
            "bin/build", f'#!/bin/sh -e\n[ "$*" = embed ]\nmkdir -p {to}\n{words}\nar rc {to}/libembed.a core.o\n'
        )

    @unittest.skipUnless(shutil.which("cc"), "it needs a C compiler (apt-get install gcc)")
    def test_readme_and_redis_build_and_ask_the_module(self):
        """The module is real, and so are Redis and the cluster."""
        self.make_core()
        told = self.paste(block("README.md", 1), block("docs/REDIS.md", 0))
        self.assertIn(f"\nPONG\n{ADD}", told)
        self.assertIn("[OK] All 16384 slots covered.\n", told)
        self.assertTrue(told.endswith(f"\n{ADD}1\n"), told)

    @unittest.skipUnless(PROGRAM, "there is no program (bin/build makes it)")
    def test_clients_runs_java(self):
        told = self.paste(block("docs/CLIENTS.md", 0))
        self.assertTrue(told.endswith("page 1: 42\npage 1: 43\npage 2: 1\npage 2 is new: false\n"), told)

    @unittest.skipUnless(PROGRAM, "there is no program (bin/build makes it)")
    def test_clients_starts_a_server_from_python(self):
        self.assertTrue(self.paste(block("docs/CLIENTS.md", 4)).endswith("41 False 29 {7: 42, 8: 1}\n"))

    @unittest.skipUnless(shutil.which("dpkg-deb"), "it needs dpkg-deb (apt-get install dpkg)")
    @unittest.skipUnless(shutil.which("systemd-sysusers"), "it needs systemd-sysusers (apt-get install systemd)")
    def test_operations_installs_starts_and_removes_the_package(self):
        """The package is empty, and what its script does for the first block, the user, is done before. tests/first/service_test.py has the rest."""
        self.write(
            "room/DEBIAN/control",
            "Package: jentry\nVersion: 1\nArchitecture: amd64\nMaintainer: a <a@b.c>\nDescription: d\n",
        )
        os.chmod(f"{self.clone}/room/DEBIAN/control", 0o644)
        told = self.paste(
            "chmod 755 room/DEBIAN\ndpkg-deb --build room jentry_1_amd64.deb >/dev/null\nrm -r room\n",
            "echo deploy:x:6390:6390::/:/bin/false >>/etc/passwd\n",
            "systemd-sysusers $PWD/clients/front/jentry-front.sysusers 2>/dev/null\n",
            *(block("docs/OPERATIONS.md", number) for number in (3, 4, 5)),
            "getent group jentry\n",
        )
        unit = "clients/front/jentry-front.service"
        lines = f"jentry\n{unit}\n{unit}\nremove jentry\npurge jentry\n"
        self.assertRegex(told, rf"^{lines}jentry:x:\d+:deploy\n$")


if __name__ == "__main__":
    unittest.main()
