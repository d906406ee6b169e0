package jentry.jcache.redis;

import static org.junit.jupiter.api.Assertions.assertTrue;

import java.net.URI;
import java.util.ArrayList;
import java.util.List;
import java.util.Map;
import java.util.Set;
import java.util.stream.Collectors;

/** A cluster for one test: three masters, each with a replica if the test wants one. */
final class RedisNodes implements AutoCloseable {
    private static final int MASTERS = 3;
    private static final int SLOTS = 16_384;
    private static final long PATIENCE_MILLIS = Long.getLong("jentry.test.patience", 300_000);

    /** The cluster-node-timeout in ms: short where a replica must take over, but longer than the pauses of a busy machine. */
    private static final String SOON = System.getProperty("jentry.test.node", "5000");
    private static final String NEVER = "60000";

    final List<RedisServer> all = new ArrayList<>();

    RedisNodes(boolean hasReplicas) throws InterruptedException {
        int count = hasReplicas ? 2 * MASTERS : MASTERS;
        for (int i = 0; i < count; i++) {
            all.add(new RedisServer("--cluster-enabled", "yes", "--cluster-config-file", "nodes", "--cluster-node-timeout",
                hasReplicas ? SOON : NEVER, "--notify-keyspace-events", "K$gxn"));
        }
        for (int i = 0; i < MASTERS; i++) {
            master(i).ask("CLUSTER", "ADDSLOTSRANGE", first(i), first(i + 1) - 1);
            master(i).ask("CLUSTER", "SET-CONFIG-EPOCH", i + 1);
        }
        for (int i = 1; i < count; i++) {
            all.get(i).ask("CLUSTER", "MEET", "127.0.0.1", master(0).port);
        }
        await(() -> all.stream().allMatch(it -> known(it) == count), "nodes that don't know each other");
        for (int i = MASTERS; i < count; i++) {
            all.get(i).ask("CLUSTER", "REPLICATE", id(master(i - MASTERS)));
        }
        await(() -> all.stream().allMatch(it -> it.text("CLUSTER", "INFO").contains("cluster_state:ok")), "no cluster");
        for (int i = MASTERS; i < count; i++) {
            RedisServer replica = all.get(i);
            await(() -> replica.text("INFO", "replication").contains("master_link_status:up"), "a replica without data");
        }
    }

    private static int first(int master) {
        return master * SLOTS / MASTERS;
    }

    RedisServer master(int i) {
        return all.get(i);
    }

    private static int known(RedisServer node) {
        return node.text("CLUSTER", "NODES").split("\n").length;
    }

    static String id(RedisServer node) {
        return node.text("CLUSTER", "MYID");
    }

    interface Condition {
        boolean holds() throws InterruptedException;
    }

    static void await(Condition condition, String otherwise) throws InterruptedException {
        long end = System.nanoTime() + PATIENCE_MILLIS * 1_000_000L;
        while (!condition.holds()) {
            assertTrue(System.nanoTime() < end, otherwise);
            Thread.sleep(20);
        }
    }

    URI uri(String name) {
        String nodes = all.stream().map(it -> "127.0.0.1:" + it.port).collect(Collectors.joining(","));
        return URI.create("jentry+redis://" + nodes + "/" + name);
    }

    /** Returns the master of a slot, once all nodes agree: the cluster bus spreads a move from node to node. */
    RedisServer owner(int slot) throws InterruptedException {
        await(() -> all.stream().map(it -> ownerBy(it, slot)).distinct().count() == 1, "nodes that don't agree who has the slot " + slot);
        return ownerBy(master(0), slot);
    }

    private RedisServer ownerBy(RedisServer asked, int slot) {
        Object[] ranges = (Object[]) asked.ask("CLUSTER", "SLOTS");
        for (Object it : ranges) {
            Object[] range = (Object[]) it;
            if ((Long) range[0] <= slot && slot <= (Long) range[1]) {
                long port = (Long) ((Object[]) range[2])[1];
                return all.stream().filter(node -> node.port == port).findFirst().orElseThrow();
            }
        }
        throw new IllegalStateException("nobody has the slot " + slot);
    }

    /** Returns the masters' epochs by node id, as one node knows them. */
    private static Map<String, String> epochs(RedisServer asked) {
        return asked.text("CLUSTER", "NODES").lines().map(line -> line.split(" ")).filter(words -> words[2].contains("master"))
            .collect(Collectors.toMap(words -> words[0], words -> words[6]));
    }

    /**
     * Waits until all nodes know the masters' epochs, which are distinct by then. Redis 7.0 may send a heartbeat 40 ms late: a master that doesn't know of a
     * newer epoch gets a slot with an older one, the next heartbeat of the slot's old master takes the slot back, and the new master deletes its keys.
     */
    private void awaitEpochs() throws InterruptedException {
        await(() -> {
            Map<String, String> known = epochs(master(0));
            return Set.copyOf(known.values()).size() == MASTERS && all.stream().allMatch(it -> known.equals(epochs(it)));
        }, "masters that don't know each other's epochs");
    }

    /** Starts to move a slot: its keys may be at either master. */
    void beginMove(int slot, RedisServer from, RedisServer to) throws InterruptedException {
        awaitEpochs();
        isDone(to.ask("CLUSTER", "SETSLOT", slot, "IMPORTING", id(from)));
        isDone(from.ask("CLUSTER", "SETSLOT", slot, "MIGRATING", id(to)));
    }

    /** Checks that a node accepts a step of a move; otherwise keys would be left at the old master. */
    private static void isDone(Object reply) {
        assertTrue(String.valueOf(reply).contains("OK"), () -> String.valueOf(reply));
    }

    /** Moves at most {@code most} keys of a slot that is moving. */
    int moveKeys(int slot, RedisServer from, RedisServer to, int most) {
        Object[] names = (Object[]) from.ask("CLUSTER", "GETKEYSINSLOT", slot, most);
        if (names.length > 0) {
            List<Object> words = new ArrayList<>(List.of("MIGRATE", "127.0.0.1", to.port, "", 0, 10_000, "KEYS"));
            words.addAll(List.of(names));
            isDone(from.ask(words.toArray()));
        }
        return names.length;
    }

    void endMove(int slot, RedisServer to) {
        String owner = id(to);
        isDone(to.ask("CLUSTER", "SETSLOT", slot, "NODE", owner));
        all.forEach(it -> isDone(it.ask("CLUSTER", "SETSLOT", slot, "NODE", owner)));
    }

    /** Moves a slot with all its keys. */
    void move(int slot, RedisServer from, RedisServer to) throws InterruptedException {
        beginMove(slot, from, to);
        while (moveKeys(slot, from, to, 1_000) > 0) { }
        endMove(slot, to);
    }

    @Override public void close() {
        all.forEach(RedisServer::close);
    }
}
