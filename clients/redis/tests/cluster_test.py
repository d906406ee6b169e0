"""Tests a cluster of three masters with a replica each: definitions, failover, resharding, a new node."""
import threading
import unittest

from cluster import CLI, Client, Cluster, NotKnown, cli, slot_of
from module_test import NO_CLASS, ModuleTest
from servers import ReplyError, wait_for

CLIENTS, CALLS = 8, 1250
KEYS = [f"visits:{number}" for number in range(64)]


def ids_at(node):
    with node.open() as line:
        return [row[0] for row in line.get("JENTRY.LIST")]


class Counting(threading.Thread):
    """Adds 1 to keys in turn, and counts for each key the replies and the calls with an unknown outcome."""

    def __init__(self, ports, add, calls, number):
        super().__init__()
        self.client, self.add, self.calls, self.number = Client(ports), add, calls, number
        self.done, self.unknown, self.wrong, self.count = dict.fromkeys(KEYS, 0), dict.fromkeys(KEYS, 0), [], 0

    def run(self):
        with self.client:
            for call in range(self.calls):
                key = KEYS[(call * 7 + self.number * 11) % len(KEYS)]
                try:
                    told = self.client.ask(key, "JENTRY.INVOKE", self.add, key, 1)
                except NotKnown:
                    self.unknown[key] += 1
                else:
                    if isinstance(told, int):
                        self.done[key] += 1
                    else:
                        self.wrong.append(told)
                self.count = call + 1


@unittest.skipIf(CLI is None, "there is no redis-cli (apt-get install redis-tools)")
class OneCluster(ModuleTest):
    def setUp(self):
        self.cluster = Cluster()
        self.addCleanup(self.cluster.__exit__)
        with self.cluster.masters()[0].open() as line:
            self.add = self.define(line, "Add")
        wait_for(lambda: all(ids_at(node) == [self.add] for node in self.cluster.nodes), "the class at all six nodes")

    def count(self, calls, during):
        """Counts with eight clients during an action. Returns the sums of the replies, of the unknown outcomes, and of the keys."""
        ports = [node.port for node in self.cluster.nodes]
        threads = [Counting(ports, self.add, calls, number) for number in range(CLIENTS)]
        for thread in threads:
            thread.start()
        wait_for(lambda: sum(thread.count for thread in threads) > CLIENTS * calls // 4, "a quarter of the calls")
        during()
        for thread in threads:
            thread.join()
        self.assertEqual([it for thread in threads for it in thread.wrong], [])
        total = lambda counts: {key: sum(getattr(thread, counts)[key] for thread in threads) for key in KEYS}
        with self.cluster.client() as client:
            kept = {key: int(client.ask(key, "GET", key) or 0) for key in KEYS}
        return total("done"), total("unknown"), kept


class Definitions(OneCluster):
    def test_classes_and_errors(self):
        with self.cluster.client() as client:
            values = [client.ask(key, "JENTRY.INVOKE", self.add, key, 1) for key in KEYS]
            self.assertEqual(values, [1] * len(KEYS))
        port, _ = self.cluster.owner(slot_of("v:1"))
        away = next(node for node in self.cluster.masters() if node.port != port)
        with away.open() as line:
            self.fails(line.ask("JENTRY.INVOKE", self.add, "v:1", 1), f"MOVED {slot_of('v:1')} 127.0.0.1:{port}")
            self.fails(
                line.ask("JENTRY.INVOKEALL", self.add, 2, "v:1", "v:2", 1),
                "CROSSSLOT Keys in request don't hash to the same slot",
            )
        with self.cluster.client() as client:
            self.assertEqual(client.ask("{v}:1", "JENTRY.INVOKEALL", self.add, 2, "{v}:1", "{v}:2", 1), [1, 1])
            self.assertEqual(client.ask("{v}:1", "JENTRY.APPLY", -1, -1, -1, "do", self.add, "{v}:1", 1)[0], 2)

    def test_one_command_forgets_a_class_at_all_nodes(self):
        words = ["JENTRY.FORGET", self.add.decode()]
        told = cli("--cluster", "call", f"127.0.0.1:{self.cluster.nodes[0].port}", *words, "--cluster-only-masters")
        self.assertEqual(told.count(": 1\n"), 3, told)
        wait_for(lambda: all(ids_at(node) == [] for node in self.cluster.nodes), "no class at all six nodes")

    def test_a_class_that_is_costly_elsewhere_is_left_out_there(self):
        first, second = self.cluster.masters()[:2]
        with first.open() as line, second.open() as other:
            other.get("CONFIG", "SET", "jentry.max-steps", 1)
            plus = self.define(line, "Plus")
            wait_for(
                lambda: "a class of another node is left out: COSTLY steps 14, and this server takes 1 (jentry.max-steps)"
                in second.log(),
                "the line of the log",
            )
            self.assertNotIn(plus, ids_at(second))


class Failover(OneCluster):
    def test_in_the_middle_of_ten_thousand(self):
        victim = self.cluster.masters()[0]

        def kill():
            with victim.open() as line:
                line.ask("WAIT", 1, 1000)
            victim.end("kill")

        done, unknown, kept = self.count(CALLS, kill)
        self.assertEqual(sum(done.values()) + sum(unknown.values()), CLIENTS * CALLS)
        for key in KEYS:
            self.assertLessEqual(kept[key], done[key] + unknown[key], f"{key}: an increment was done twice")
        lost = sum(max(0, done[key] - kept[key]) for key in KEYS)
        print(
            f"failover: {sum(done.values())} replied, {sum(unknown.values())} not known, {sum(kept.values())} kept, {lost} lost",
            flush=True,
        )
        self.assertLess(lost, CLIENTS * CALLS // 10)
        self.assertEqual(len(self.cluster.masters()), 3)
        self.assertTrue(all(ids_at(node) == [self.add] for node in self.cluster.masters()))


class Resharding(OneCluster):
    def test_under_load(self):
        node, other = self.cluster.masters()[:2]

        def move():
            with node.open() as line, other.open() as to:
                source, target = line.get("CLUSTER", "MYID").decode(), to.get("CLUSTER", "MYID").decode()
            cli(
                "--cluster",
                "reshard",
                f"127.0.0.1:{node.port}",
                "--cluster-from",
                source,
                "--cluster-to",
                target,
                "--cluster-slots",
                1000,
                "--cluster-yes",
            )

        owners = {key: self.cluster.owner(slot_of(key)) for key in KEYS}
        done, unknown, kept = self.count(CALLS, move)
        moved = [key for key in KEYS if self.cluster.owner(slot_of(key)) != owners[key]]
        print(f"resharding: {len(moved)} of {len(KEYS)} keys moved", flush=True)
        self.assertGreater(len(moved), 0)
        self.assertEqual(sum(unknown.values()), 0)
        self.assertEqual(kept, done)
        self.assertEqual(sum(kept.values()), CLIENTS * CALLS)


class NewNode(OneCluster):
    def test_knows_no_class(self):
        with self.cluster.client() as client:
            client.ask("v:1", "JENTRY.INVOKE", self.add, "v:1", 41)
        slot = slot_of("v:1")
        port, source = self.cluster.owner(slot)
        node = self.cluster.add_server()
        cli("--cluster", "add-node", f"127.0.0.1:{node.port}", f"127.0.0.1:{port}")
        wait_for(lambda: all(self.cluster.is_settled(it, 7) for it in self.cluster.nodes), "the seventh node")
        self.assertEqual(ids_at(node), [])
        with node.open() as line, Client([port]).line(port) as old:
            target = line.get("CLUSTER", "MYID").decode()
            line.get("CLUSTER", "SETSLOT", slot, "IMPORTING", source)
            old.get("CLUSTER", "SETSLOT", slot, "MIGRATING", target)
            old.get("MIGRATE", "127.0.0.1", node.port, "v:1", 0, 10_000)
            line.get("CLUSTER", "SETSLOT", slot, "NODE", target)
            old.get("CLUSTER", "SETSLOT", slot, "NODE", target)
            self.fails(line.ask("JENTRY.INVOKE", self.add, "v:1", 1), NO_CLASS)
            self.assertEqual(line.ask("GET", "v:1"), b"41")
            self.assertEqual(self.define(line, "Add"), self.add)
            self.assertEqual(line.ask("JENTRY.INVOKE", self.add, "v:1", 1), 42)
            self.assertIsInstance(old.ask("JENTRY.INVOKE", self.add, "v:1", 1), ReplyError)
