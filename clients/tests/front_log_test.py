#!/usr/bin/env python3
"""front_log_test: the lines that a front logs of definitions. running.py has the requirements."""
import hashlib
import json
import os
import unittest

from class_files import another, plus
from frames import END, ENDED, define, denied, frame
from running import STAND_IN, FrontTest, Running, take

BUILT_IN = 7


def server(room=4_096):
    """A server that has room for this number of classes besides the clients' built-in ones."""
    return STAND_IN + ["--classes", str(BUILT_IN + room)]


class Limits(FrontTest):
    def test_fewer_requests_than_clients_send_are_warned_of(self):
        with Running("--requests", "4095", server=STAND_IN) as front:
            self.assertIn("--requests 4095: the clients send rounds of up to 4096", front.logged(" WARN ")[0])
        with Running("--requests", "4096", server=STAND_IN) as front:
            self.assertEqual([line for line in front.words if " WARN " in line], [])


class Definitions(FrontTest):
    def test_a_class_that_the_server_denies_is_logged_as_denied(self):
        with Running(server=server(1)) as front, front.open() as a:
            self.define(a, another(1), 0)
            self.ask(a, define(another(2)) + END, denied(4) + ENDED)
            (line,) = front.logged("denied class")
            self.assertRegex(line, r" WARN .*denied class: .*number=4 name=TooManyClasses .*sha1=[0-9a-f]{40} ")
            self.assertEqual([it for it in front.words if "refused class" in it], [])

    def test_each_definition_has_a_line_with_peer_name_hash_and_bounds(self):
        me = f'peer="pid {os.getpid()} uid {os.getuid()}"'
        sha1 = hashlib.sha1(plus()).hexdigest()
        with Running(server=server()) as front, front.open() as a, front.open() as b:
            self.define(a, plus(), 0)
            (line,) = front.logged("accepted class")
            self.assertIn(f'class="Row" steps=14 words=0 sha1={sha1} bytes={len(plus())} connection=2 {me}', line)
            self.define(b, plus(), 0)
            (line,) = front.logged("known class")
            self.assertIn(f'class="Row" steps=14 words=0 sha1={sha1} bytes={len(plus())} connection=3 {me}', line)

    def test_a_limit_of_the_front_is_logged_with_its_option(self):
        for options, reason in ((("--classes", "1"), "--classes"), (("--define-uid", "4711"), "--define-uid")):
            with self.subTest(reason=reason), Running(*options, server=server()) as front, front.open() as a:
                a.sendall(define(another(1)) + END)
                take(a, 11 if "uid" in reason else 22)
                self.ask(a, define(another(2)) + END, denied(4) + ENDED)
                line = front.logged('denied class.*class="Row0002"')[-1]
                self.assertIn("number=4 name=TooManyClasses", line)
                self.assertIn(reason, line)

    def test_a_line_of_json_has_the_fields(self):
        strange = another(7).replace(b"Row0007", b'R\n"{}\t\x7f')
        with Running("--log-format", "json", server=server()) as front, front.open() as a:
            self.define(a, strange, 0)
            self.ask(a, define(b"abcd") + END, frame(b"\2\3\0\0\0\0") + ENDED)
            front.logged("refused class")
            lines = [json.loads(line) for line in front.words]
        by_event = {line.get("event", line.get("message")): line for line in lines}
        accepted = by_event["accepted class"]
        self.assertEqual((accepted["class"], accepted["steps"], accepted["connection"]), ('R\n"{}\t\x7f', 14, 2))
        self.assertEqual((accepted["level"], accepted["sha1"]), ("INFO", hashlib.sha1(strange).hexdigest()))
        refused = by_event["refused class"]
        self.assertEqual((refused["level"], refused["number"], refused["name"]), ("WARN", 3, "BadMagic"))
        self.assertTrue(any(line.get("message", "").startswith("listening on ") for line in lines))

    def test_a_stranger_fills_no_log(self):
        with Running("--classes", "0", server=server()) as front, front.open() as a:
            for _ in range(50):
                self.ask(a, 10 * define(another(1)) + END, 10 * denied(4) + ENDED)
            self.assertLess(len(front.logged("denied class")), 100)


if __name__ == "__main__":
    unittest.main()
