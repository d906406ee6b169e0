"""Shared base of the tests of the module."""
import hashlib
import unittest

from servers import MODULE, PROGRAM, REDIS, ReplyError, class_file

LACKS = (
    "there is no redis-server (apt-get install redis-server)"
    if not REDIS
    else "there is no module: JENTRY_REDIS_MODULE names it"
    if not MODULE
    else None
)
NEEDS_PROGRAM = unittest.skipIf(PROGRAM is None, "there is no built jentry")
OLDEST = "7.0."
"""How the version begins of the Redis that has no categories of ACLs for the commands of modules."""
KNOWN = ["7.0.", "8.0.", "8.1."]
"""How the versions begin of Redis and of Valkey whose layout the module knows: it reads and writes their integers in place, and replaces the arguments
of a command by those that are replicated."""
NO_CLASS = "NOCLASS no class of this id here: JENTRY.DEFINE it"


@unittest.skipIf(LACKS, LACKS)
class ModuleTest(unittest.TestCase):
    def fails(self, told, text):
        """Checks that a reply is an error with exactly this text."""
        self.assertIsInstance(told, ReplyError, told)
        self.assertEqual(str(told), text)

    def is_oldest(self, line):
        """Returns whether the server is Redis 7.0."""
        return line.info("server")["redis_version"].startswith(OLDEST)

    def is_known(self, line):
        """Returns whether the module knows the layout of the server."""
        told = line.info("server")
        return told.get("valkey_version", told["redis_version"])[:4] in KNOWN

    def needs_known(self, line):
        if not self.is_known(line):
            self.skipTest("the module doesn't know the layout of this server")

    def needs_shared(self, line):
        if "valkey_version" in line.info("server"):
            self.skipTest("Valkey shares no integers among keys")

    def define(self, line, name):
        """Defines an example, and returns its id."""
        file = class_file(name)
        told = line.get("JENTRY.DEFINE", file)
        self.assertEqual(told[0].decode(), hashlib.sha1(file).hexdigest())
        return told[0]
