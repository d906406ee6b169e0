"""A program that uses python3-redis, and defines a class if a node lacks it. `redis_client.py one|cluster PORT CLASS`"""
import hashlib
import logging
import sys

import redis
from redis.cluster import RedisCluster
from redis.exceptions import ResponseError

logging.disable(logging.CRITICAL)  # a RedisCluster logs each error with a traceback


class Jentry:
    """Processors on a server or a cluster."""

    def __init__(self, server):
        self.server, self.files = server, {}

    def processor(self, file):
        """Returns the id of a class, and keeps its file for a node that lacks it."""
        name = hashlib.sha1(file).hexdigest()
        self.files[name] = file
        return name

    def forget(self, name):
        """Forgets a class at all nodes."""
        where = {"target_nodes": RedisCluster.PRIMARIES} if isinstance(self.server, RedisCluster) else {}
        self.server.execute_command("JENTRY.FORGET", name, **where)

    def invoke(self, name, key, *args):
        try:
            return self.server.execute_command("JENTRY.INVOKE", name, key, *args)
        except ResponseError as error:
            if not str(error).startswith("NOCLASS"):
                raise
        where = {"target_nodes": self.server.get_node_from_key(key)} if isinstance(self.server, RedisCluster) else {}
        self.server.execute_command("JENTRY.DEFINE", self.files[name], **where)
        return self.server.execute_command("JENTRY.INVOKE", name, key, *args)


def try_without_argument(jentry, add):
    try:
        return jentry.invoke(add, "visits:0"), None, None
    except ResponseError as error:
        return None, type(error).__name__, error


def main(kind, port, path):
    server = RedisCluster(host="127.0.0.1", port=int(port)) if kind == "cluster" else redis.Redis(port=int(port))
    jentry = Jentry(server)
    with open(path, "rb") as file:
        add = jentry.processor(file.read())
    keys = [f"visits:{number}" for number in range(12 if kind == "one" else 24)]
    print(sum(jentry.invoke(add, key, 1) for key in keys), sum(int(server.get(key)) for key in keys))
    print(*try_without_argument(jentry, add))
    if kind == "cluster":
        jentry.forget(add)
    if kind == "one":
        with server.pipeline() as pipe:
            for _ in range(3):
                pipe.execute_command("JENTRY.INVOKE", add, "pipe:1", 1)
            print(pipe.execute())
        print({name: value for name, value in server.info("jentry").items() if name == "jentry_classes"})


if __name__ == "__main__":
    main(*sys.argv[1:])
