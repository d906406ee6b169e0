"""A cluster of servers with the module, and a cluster client."""
import binascii
import re
import shutil
import subprocess
import time

from servers import PATIENCE, Connection, ReplyError, Server, wait_for

CLI = shutil.which("redis-cli")
SLOTS = 16_384


def slot_of(key):
    """Returns the slot of a key, or of the tag in its braces."""
    found = re.search(r"\{([^}]+)\}", key)
    return binascii.crc_hqx((found[1] if found else key).encode(), 0) % SLOTS


class Cluster:
    """Masters, each with the same number of replicas. Leaving the `with` statement removes all of them."""

    def __init__(self, masters=3, replicas=1):
        self.nodes = []
        try:
            for _ in range(masters * (1 + replicas)):
                self.add_server()
            hosts = [f"127.0.0.1:{node.port}" for node in self.nodes]
            cli("--cluster", "create", *hosts, "--cluster-replicas", replicas, "--cluster-yes")
            wait_for(
                lambda: all(self.is_settled(node, len(self.nodes), replicas) for node in self.nodes), "the cluster"
            )
        except BaseException:
            self.__exit__()
            raise

    def add_server(self):
        node = Server("--cluster-enabled", "yes", "--cluster-node-timeout", 3000, "--appendonly", "no")
        self.nodes.append(node)
        return node

    @staticmethod
    def is_settled(node, count, has_replicas=True):
        with node.open() as line:
            info = dict(row.split(":") for row in line.get("CLUSTER", "INFO").decode().splitlines())
            rows = line.get("CLUSTER", "NODES").decode().splitlines()
            replicas = [row for row in rows if "slave" in row.split()[2]]
            is_linked = line.info("replication").get("master_link_status", "up") == "up"
        return (
            info["cluster_state"] == "ok"
            and len(rows) == count
            and all("connected" in row for row in rows)
            and is_linked
            and (len(replicas) > 0 or not has_replicas)
        )

    def role(self, node):
        with node.open() as line:
            return line.get("ROLE")[0].decode()

    def masters(self):
        return [node for node in self.nodes if node.process.poll() is None and self.role(node) == "master"]

    def client(self):
        return Client([node.port for node in self.nodes if node.process.poll() is None])

    def owner(self, slot):
        """Returns the port and the id of the master of a slot."""
        with self.masters()[0].open() as line:
            for row in line.get("CLUSTER", "SLOTS"):
                if row[0] <= slot <= row[1]:
                    return row[2][1], row[2][2].decode()
        return None

    def __enter__(self):
        return self

    def __exit__(self, *_):
        for node in self.nodes:
            node.__exit__()


def cli(*words):
    done = subprocess.run(
        [CLI, *map(str, words)],
        stdout=subprocess.PIPE,
        stderr=subprocess.STDOUT,
        text=True,
        timeout=5 * PATIENCE,
        check=False,
    )
    if done.returncode != 0:
        raise RuntimeError(done.stdout)
    return done.stdout


class NotKnown(Exception):
    """Raised if a connection broke before the reply, so it isn't known whether the call has run."""


class Client:
    """Sends each command to the node of its key, and follows MOVED and ASK. It never resends a call that may have run."""

    def __init__(self, ports):
        self.ports, self.slots, self.lines = ports, {}, {}

    def __enter__(self):
        return self

    def __exit__(self, *_):
        for line in self.lines.values():
            line.close()

    def line(self, port):
        if port not in self.lines:
            self.lines[port] = Connection(port)
        return self.lines[port]

    def forget(self, port):
        line = self.lines.pop(port, None)
        if line:
            line.close()
        self.slots = {slot: at for slot, at in self.slots.items() if at != port}

    def ask(self, key, *words):
        """Sends a command on a key to its node, and returns the reply."""
        until = time.monotonic() + PATIENCE
        turn = 0
        while time.monotonic() < until:
            port = self.slots.get(slot_of(key), self.ports[turn % len(self.ports)])
            turn += 1
            told = self.ask_at(port, False, *words)
            if isinstance(told, ReplyError) and str(told).startswith("ASK "):
                told = self.ask_at(int(str(told).rsplit(":", 1)[1]), True, *words)
            if isinstance(told, ReplyError) and str(told).startswith("MOVED "):
                self.slots[slot_of(key)] = int(str(told).rsplit(":", 1)[1])
            elif (
                isinstance(told, ReplyError)
                and str(told).split()[0] in ("CLUSTERDOWN", "TRYAGAIN", "LOADING", "READONLY", "MASTERDOWN")
                or told is NOT_SENT
            ):
                time.sleep(0.05)
            else:
                return told
        raise TimeoutError(f"{words[0]} was not done in {PATIENCE} s")

    def ask_at(self, port, is_asking, *words):
        try:
            line = self.line(port)
        except OSError:
            self.forget(port)
            return NOT_SENT
        try:
            if is_asking:
                line.get("ASKING")
            return line.ask(*words)
        except (OSError, EOFError) as error:
            self.forget(port)
            raise NotKnown(str(error)) from error


NOT_SENT = object()
