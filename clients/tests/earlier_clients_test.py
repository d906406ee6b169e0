"""Clients that know no Boolean, or no exception that a class throws itself, beside clients that do, on one front: what they get for a class that
returns or throws one is an error that they know.

Their sources are those of a commit, which `git archive` takes from the repository's history. JENTRY_FRONT and JENTRY_PROGRAM name the front and the
built program.
"""
import io
import os
import shutil
import subprocess
import sys
import tarfile
import tempfile
import unittest

from class_files import EXAMPLES
from running import FRONT, HERE, PATIENCE, PROGRAM, FrontTest, Running

sys.path.append(os.path.join(HERE, "../python"))
import jentry

WITHOUT_BOOLEAN = "9c52cdf3f7313ea0a3f6a28029fa3efa6c6b1bf3"
"""The last commit whose clients know no Boolean."""
WITHOUT_THROW = "806535eacb12a1b0ccfd37723af07efdb7cda9a9"
"""A commit whose clients know no outcome of an exception that a class throws itself."""
JCACHE = "/usr/share/java/geronimo-jcache-1.0-spec.jar"
BY_PYTHON = """
import sys
import jentry
with open(sys.argv[2], "rb") as file, jentry.Cache.connect(sys.argv[1]) as cache:
    processor = cache.define(file.read())
    cache.put(7, 41)
    first = (40, True) if "Reserve" in sys.argv[2] else (40,)
    for work in (lambda: cache.invoke(7, processor, *first), lambda: cache.invoke(7, processor, 40), lambda: cache.get(7)):
        try:
            print(work())
        except jentry.Error as error:
            print(type(error).__name__, error)
"""


def run(*words, **variables):
    """Runs a command, which has to end with status 0, and returns the lines that it prints."""
    done = subprocess.run(
        words,
        env={**os.environ, **variables},
        stdin=subprocess.DEVNULL,
        stdout=subprocess.PIPE,
        stderr=subprocess.STDOUT,
        text=True,
        timeout=PATIENCE * 2,
    )
    if done.returncode != 0:
        raise AssertionError(f"{words} ended with status {done.returncode}:\n{done.stdout[-4000:]}")
    return done.stdout.splitlines()


def example(name):
    return os.path.join(EXAMPLES, name + ".class")


def earlier_sources(commit, more):
    """Returns the archive of the clients at a commit, with what more their builds need, or None without the repository's history."""
    paths = ("clients/python", "clients/processors", "clients/java", *more)
    words = ["git", "-C", os.path.join(HERE, "../.."), "archive", commit, *paths]
    done = subprocess.run(words, stdout=subprocess.PIPE, stderr=subprocess.DEVNULL) if shutil.which("git") else None
    return done.stdout if done and done.returncode == 0 else None


class Earlier:
    """Clients of a commit, which invoke a class of examples."""

    commit, name, more = None, None, ()

    @classmethod
    def setUpClass(cls):
        sources = earlier_sources(cls.commit, cls.more)
        if sources is None:
            raise unittest.SkipTest(f"there is no git history with {cls.commit[:8]}")
        cls.folder = tempfile.mkdtemp(prefix="jentry-earlier-")
        cls.addClassCleanup(shutil.rmtree, cls.folder)
        with tarfile.open(fileobj=io.BytesIO(sources)) as archive:
            archive.extractall(cls.folder)

    def by_python(self, front):
        """Returns the lines that the earlier client for Python prints."""
        words = (sys.executable, "-B", "-c", BY_PYTHON, front.place, example(self.name))
        return run(*words, PYTHONPATH=os.path.join(self.folder, "clients/python"))

    def by_java(self, front):
        """Returns the lines that the earlier client for Java prints."""
        (jar,) = run(
            os.path.join(self.folder, "clients/java/build"), os.path.join(self.folder, "out"), JCACHE_JAR=JCACHE
        )
        made = os.path.join(self.folder, "caller")
        path = os.pathsep.join((JCACHE, jar, EXAMPLES))
        run("javac", "-nowarn", "-cp", path, "-d", made, os.path.join(HERE, "Caller.java"))
        return run("java", "-cp", path + os.pathsep + made, "Caller", "jentry+unix:" + front.place, self.name)


BROKEN = "the stream to the server is broken"
OUTCOME_UNKNOWN = f"CallOutcomeUnknownException: {BROKEN}; whether this call has run is not known"
NOT_SENT = f"CallNotSentException: {BROKEN}; this call was not sent"


@unittest.skipUnless(FRONT and PROGRAM, "the front or the program isn't built")
class WithoutBoolean(Earlier, FrontTest):
    commit, name = WITHOUT_BOOLEAN, "Reserve"

    def later_client_is_served(self, front):
        """Checks that a client of today gets a Boolean from the same class, after an earlier one left 1 on the key."""
        with jentry.Cache.connect(front.place) as cache, open(example(self.name), "rb") as file:
            reserve = cache.define(file.read())
            self.assertEqual(cache.get(7), 1)
            self.assertIs(cache.invoke(7, reserve, 40, True), False)
            self.assertIs(cache.invoke(7, reserve, 1, False), True)
            self.assertEqual(cache.get(7), 0)

    def test_python(self):
        with Running() as front:
            ended = "StreamEnded the server told what is no reply to the request (no argument)"
            # It sends True as the Long 1.
            self.assertEqual(self.by_python(front), ["ProcessorThrew ClassCastException", ended, ended])
            self.later_client_is_served(front)

    @unittest.skipUnless(shutil.which("javac") and os.path.exists(JCACHE), "there is no javac or no JCache API")
    def test_java(self):
        with Running() as front:
            wrong = "an argument is a Long, an Integer or null; argument 2 is a java.lang.Boolean"
            told = self.by_java(front)
            self.assertEqual(told, ["IllegalArgumentException: " + wrong, OUTCOME_UNKNOWN, NOT_SENT, "1"])
            self.later_client_is_served(front)


@unittest.skipUnless(FRONT and PROGRAM, "the front or the program isn't built")
class WithoutThrow(Earlier, FrontTest):
    commit, name, more = WITHOUT_THROW, "Withdraw", ("LICENSE",)

    def later_client_is_served(self, front):
        """Checks that a client of today gets the exception of the same class, after the one of an earlier client left 1 on the key."""
        with jentry.Cache.connect(front.place) as cache, open(example(self.name), "rb") as file:
            withdraw = cache.define(file.read())
            self.assertEqual(cache.get(7), 1)
            with self.assertRaises(jentry.ProcessorThrew) as told:
                cache.invoke(7, withdraw, 40)
            self.assertEqual((told.exception.number, told.exception.text), (9, "insufficient funds"))
            self.assertEqual(cache.invoke(7, withdraw, 1), 0)

    def test_python(self):
        with Running() as front:
            unknown = "OutcomeUnknown the server told what is no reply to the request (no outcome)"
            self.assertEqual(
                self.by_python(front), ["1", unknown, "NotSent the stream has ended, and the call wasn't sent"]
            )
            self.later_client_is_served(front)

    @unittest.skipUnless(shutil.which("javac") and os.path.exists(JCACHE), "there is no javac or no JCache API")
    def test_java(self):
        with Running() as front:
            told = self.by_java(front)
            # It opens another stream for the get, and logs that.
            self.assertEqual(told[:2] + told[-1:], ["1", OUTCOME_UNKNOWN, "1"])
            self.assertRegex("".join(told[2:-1]), f"WARNING: {BROKEN}; a new one .* was made")
            self.later_client_is_served(front)


if __name__ == "__main__":
    unittest.main()
