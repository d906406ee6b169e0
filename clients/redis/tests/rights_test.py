"""Tests access rights: commands by name, keys by pattern, read rights apart from write rights, and who may change the classes."""
from cluster import Cluster
from commands_test import OneServer
from module_test import ModuleTest
from servers import ReplyError, Server, class_file, wait_for

NO_DEPLOYER = "NOPERM only the users of jentry.deployers may change the classes"


class Rights(OneServer):
    def user(self, *rules):
        """Returns a connection of a user with these rules."""
        self.line.get("ACL", "SETUSER", "one", "reset", "on", "nopass", *rules)
        other = self.server.open()
        self.addCleanup(other.close)
        other.get("AUTH", "one", "any")
        return other

    def denied(self, told, text):
        self.assertIsInstance(told, ReplyError, told)
        self.assertRegex(str(told), text)

    def denied_command(self, told, name):
        self.denied(told, f"^NOPERM (this user|User one) has no permissions to run the '{name}' command$")

    def denied_key(self, told):
        whole = "this user has no permissions to access one of the keys used as arguments"
        self.denied(told, f"^NOPERM ({whole}|No permissions to access a key)$")

    def test_the_one_who_may_invoke_needs_no_get_and_no_set(self):
        other = self.user("+jentry.invoke", "~visits:*")
        self.assertEqual(other.ask("JENTRY.INVOKE", self.add, "visits:1", 5), 5)
        self.denied_key(other.ask("JENTRY.INVOKE", self.add, "others:1", 5))
        self.denied_command(other.ask("GET", "visits:1"), "get")
        self.denied_command(other.ask("SET", "visits:1", 1), "set")
        self.denied_command(other.ask("JENTRY.DEFINE", class_file("Plus")), "jentry.define")
        self.denied_command(other.ask("JENTRY.DETAIL", self.add, "visits:1", 5), "jentry.detail")
        self.denied_command(other.ask("JENTRY.FORGET", self.add), "jentry.forget")
        self.assertEqual(self.line.ask("GET", "visits:1"), b"5")

    def test_the_one_who_deploys(self):
        other = self.user("+jentry.define", "+jentry.list")
        self.assertEqual(other.ask("JENTRY.DEFINE", class_file("Plus"))[1], 14)
        self.denied_command(other.ask("JENTRY.INVOKE", self.add, "visits:1", 5), "jentry.invoke")

    def test_categories(self):
        """From Redis 7.2 on the commands are in the categories for which the module asks; in 7.0 they are in none but @all."""
        invoke = ("JENTRY.INVOKE", self.add, "visits:1", 5)
        define, forget = ("JENTRY.DEFINE", class_file("Plus")), ("JENTRY.FORGET", self.add)
        other = self.user("~*", "+@all")
        self.assertEqual(other.ask(*invoke), 5)
        if self.is_oldest(self.line):
            other = self.user("~*", "+@write", "+@read")
            self.denied_command(other.ask(*invoke), "jentry.invoke")
            return
        other = self.user("~*", "+@write", "+@read", "-@dangerous")
        self.assertEqual(other.ask(*invoke), 10)
        self.denied_command(other.ask(*define), "jentry.define")
        self.denied_command(other.ask(*forget), "jentry.forget")
        self.denied_command(other.ask("JENTRY.EXPLAIN", class_file("Plus")), "jentry.explain")
        other = self.user("~*", "+@read")
        self.denied_command(other.ask(*invoke), "jentry.invoke")
        self.assertEqual(other.ask("JENTRY.EXISTS", self.add), [1])
        other = self.user("~*", "+@all", "-@admin")
        self.denied_command(other.ask(*define), "jentry.define")
        self.denied_command(other.ask(*forget), "jentry.forget")

    def test_keys_that_may_be_read_alone(self):
        cas = self.define(self.line, "CompareAndSet")
        other = self.user("+jentry.peek", "+jentry.invoke", "%R~visits:*")
        self.assertEqual(other.ask("JENTRY.PEEK", cas, "visits:1", 1, 2), 0)
        self.denied_key(other.ask("JENTRY.PEEK", cas, "others:1", 1, 2))
        self.denied_key(other.ask("JENTRY.INVOKE", cas, "visits:1", 1, 2))
        other = self.user("+jentry.peek", "+jentry.invoke", "%W~visits:*")
        self.denied_key(other.ask("JENTRY.PEEK", cas, "visits:1", 1, 2))
        self.denied_key(other.ask("JENTRY.INVOKE", cas, "visits:1", 1, 2))
        other = self.user("+jentry.invoke", "%RW~visits:*")
        self.assertEqual(other.ask("JENTRY.INVOKE", cas, "visits:1", "null", 2), 1)

    def test_each_command_with_keys(self):
        other = self.user("+@all", "~visits:*")
        for words in (
            ("INVOKE", self.add, "others:1", 1),
            ("DETAIL", self.add, "others:1", 1),
            ("PEEK", self.add, "others:1", 1),
            ("APPLY", -1, -1, -1, "do", self.add, "others:1", 1),
            ("INVOKEALL", self.add, 2, "visits:1", "others:1", 1),
        ):
            self.denied_key(other.ask("JENTRY." + words[0], *words[1:]))
        self.assertEqual(other.ask("JENTRY.INVOKEALL", self.add, 1, "visits:1", 1), [1])
        self.assertEqual(self.line.ask("DBSIZE"), 1)

    def test_keys_of_commands(self):
        keys = lambda *words: self.line.get("COMMAND", "GETKEYS", *words)
        for name in ("INVOKE", "DETAIL", "PEEK"):
            self.assertEqual(keys("JENTRY." + name, "id", "v:1", 5), [b"v:1"])
        self.assertEqual(keys("JENTRY.APPLY", 1, 2, 3, "do", "id", "v:1", 5), [b"v:1"])
        self.assertEqual(keys("JENTRY.INVOKEALL", "id", 2, "v:1", "v:2", 5), [b"v:1", b"v:2"])
        flags = lambda name: self.line.get("COMMAND", "INFO", name)[0][2]
        for name in ("invoke", "detail", "invokeall", "apply", "define"):
            self.assertEqual(
                [flag for flag in flags("jentry." + name) if flag in (b"write", b"denyoom", b"readonly")],
                [b"write", b"denyoom"],
            )
        for name in ("peek", "list", "class", "explain"):
            self.assertIn(b"readonly", flags("jentry." + name))
        self.assertNotIn(b"denyoom", flags("jentry.forget"))


class Deployers(OneServer):
    """The setting `jentry.deployers` names the users who may change the classes."""

    user = Rights.user

    def setUp(self):
        super().setUp()
        self.addCleanup(self.line.get, "CONFIG", "SET", "jentry.deployers", "")

    def test_without_it_the_rules_decide(self):
        # Redis 7.0 has no categories for the commands of modules.
        other = self.user("~*", "+@all", *(["-@dangerous", "-@admin"] if self.is_oldest(self.line) else []))
        self.assertEqual(other.ask("JENTRY.DEFINE", class_file("Plus"))[1], 14)
        self.assertEqual(other.ask("JENTRY.FORGET", self.add), 1)
        self.assertEqual(self.line.get("CONFIG", "GET", "jentry.deployers"), [b"jentry.deployers", b""])

    def test_others_are_refused(self):
        other = self.user("~*", "+@all")
        self.line.get("CONFIG", "SET", "jentry.deployers", " default   two ")
        for words in (("DEFINE", class_file("Plus")), ("DEFINE", class_file("Add")), ("FORGET", self.add)):
            self.fails(other.ask("JENTRY." + words[0], *words[1:]), NO_DEPLOYER)
        self.assertEqual(other.ask("JENTRY.INVOKE", self.add, "v:1", 5), 5)
        self.assertEqual(other.ask("JENTRY.EXISTS", self.add), [1])
        self.define(self.line, "Plus")
        self.line.get("CONFIG", "SET", "jentry.deployers", "two one")
        self.assertEqual(other.ask("JENTRY.FORGET", self.add), 1)
        self.fails(self.line.ask("JENTRY.DEFINE", class_file("Add")), NO_DEPLOYER)

    def test_in_transactions_and_scripts(self):
        other = self.user("~*", "+@all")
        self.line.get("CONFIG", "SET", "jentry.deployers", "default")
        script = "return redis.pcall('JENTRY.FORGET', ARGV[1])"
        for line in (other, self.line):
            # A script has no user of its own.
            self.fails(line.ask("EVAL", script, 0, self.add), NO_DEPLOYER)
        for line, told in ((other, NO_DEPLOYER), (self.line, "1")):
            line.get("MULTI")
            line.ask("JENTRY.FORGET", self.add)
            self.assertEqual([str(it) for it in line.get("EXEC")], [told])


class DeployersElsewhere(ModuleTest):
    """Replicas, files and the other nodes of a cluster take what the deployers of one server changed."""

    def test_replicas_and_files(self):
        with Server("--appendonly", "yes") as server, server.open() as line:
            with Server() as replica, replica.open() as other:
                other.get("REPLICAOF", "127.0.0.1", server.port)
                wait_for(lambda: other.info("replication").get("master_link_status") == "up", "the link")
                other.get("CONFIG", "SET", "jentry.deployers", "nobody")
                add, plus = self.define(line, "Add"), self.define(line, "Plus")
                line.get("JENTRY.FORGET", plus)
                self.assertEqual(line.ask("WAIT", 1, 10_000), 1)
                self.assertEqual(other.get("JENTRY.EXISTS", add, plus), [1, 0])
            server.options += ("--jentry.deployers", "nobody")
            server.restart()
            with server.open() as again:
                self.assertEqual(again.get("JENTRY.EXISTS", add, plus), [1, 0])
                self.fails(again.ask("JENTRY.FORGET", add), NO_DEPLOYER)

    def test_nodes(self):
        with Cluster(3, 0) as cluster:
            first, *others = cluster.nodes
            for node in others:
                with node.open() as line:
                    line.get("CONFIG", "SET", "jentry.deployers", "nobody")
            with first.open() as line:
                add = self.define(line, "Add")
            for node in others:
                with node.open() as line:
                    wait_for(lambda: line.get("JENTRY.EXISTS", add) == [1], "the class at the node")
                    self.fails(line.ask("JENTRY.FORGET", add), NO_DEPLOYER)
