package jentry.jcache.redis;

import static org.junit.jupiter.api.Assertions.assertEquals;
import static org.junit.jupiter.api.Assertions.assertTrue;

import java.util.HashMap;
import java.util.Map;
import java.util.Set;
import java.util.concurrent.atomic.AtomicBoolean;
import java.util.concurrent.atomic.AtomicLong;
import javax.cache.Cache;
import javax.cache.CacheException;
import javax.cache.CacheManager;
import jentry.jcache.CallNotSentException;
import jentry.jcache.CallOutcomeUnknownException;
import jentry.jcache.Renewing;
import jentry.jcache.Team;
import org.junit.jupiter.api.Test;
import org.junit.jupiter.api.Timeout;

/** Tests exact counts by a verified processor: on one server, on three masters, while slots move, and during a failover. */
@Timeout(1_800)
class ClusterTest extends WithRedis {
    private static final int THREADS = 8;
    private static final int EACH = Integer.getInteger("jentry.test.each", 20_000);
    private static final long KEYS = 16;

    private static long sum(Cache<Long, Long> cache) {
        long sum = 0;
        for (long key = 0; key < KEYS; key++) {
            Long value = cache.get(key);
            sum += value == null ? 0 : value;
        }
        return sum;
    }

    private static void add(Cache<Long, Long> cache, int thread, int i) {
        cache.invoke((thread * 7L + i) % KEYS, new Renewing.Add(), 1L);
    }

    /** Counts the outcomes of the threads' calls. */
    private static final class Ends {
        final AtomicLong done = new AtomicLong(), unknown = new AtomicLong(), unsent = new AtomicLong();
        private final Team team;

        Ends(Cache<Long, Long> cache) {
            team = Team.of(THREADS, t -> {
                for (int i = 0; i < EACH; i++) {
                    try {
                        add(cache, t, i);
                        done.incrementAndGet();
                    } catch (CallOutcomeUnknownException e) {
                        unknown.incrementAndGet();
                    } catch (CallNotSentException e) {
                        unsent.incrementAndGet();
                        Thread.sleep(20);
                    }
                }
            });
        }

        private long all() {
            return done.get() + unknown.get() + unsent.get();
        }

        void await() throws InterruptedException {
            team.join(this::all);
            assertEquals((long) THREADS * EACH, all());
        }

        @Override public String toString() {
            return done + " done, " + unknown + " not known, " + unsent + " not sent";
        }
    }

    /** Checks that every call is done exactly once. */
    private static void isExact(Cache<Long, Long> cache) throws InterruptedException {
        Ends ends = new Ends(cache);
        ends.await();
        assertEquals((long) THREADS * EACH, ends.done.get(), ends::toString);
        assertEquals((long) THREADS * EACH, sum(cache));
    }

    @Test void onOneServerWithAndWithoutStatistics() throws InterruptedException {
        CacheManager manager = manager(open(new RedisServer()));
        for (boolean counts : new boolean[] {false, true}) {
            Cache<Long, Long> cache = manager.createCache("counts" + counts, types().setStatisticsEnabled(counts));
            isExact(cache);
        }
    }

    @Test void onThreeMasters() throws InterruptedException {
        CacheManager manager = open(RedisServer.manager(open(new RedisNodes(false)).uri("app")));
        for (boolean counts : new boolean[] {false, true}) {
            Cache<Long, Long> cache = manager.createCache("counts" + counts, types().setStatisticsEnabled(counts));
            isExact(cache);
        }
    }

    /** Each slot moves only once: after a second move a late heartbeat of the cluster bus could give the slot to a node without its keys. */
    @Test void onThreeMastersWhileSlotsMove() throws Exception {
        RedisNodes nodes = open(new RedisNodes(false));
        Cache<Long, Long> cache = open(RedisServer.manager(nodes.uri("app"))).createCache("test", types());
        AtomicBoolean over = new AtomicBoolean();
        AtomicLong moved = new AtomicLong();
        Team moves = Team.of(1, t -> {
            for (long key = 0; key < KEYS && !over.get(); key++) {
                int slot = RedisCluster.slot("app:test:" + key);
                RedisServer from = nodes.owner(slot), to = nodes.master((nodes.all.indexOf(from) + 1) % 3);
                nodes.move(slot, from, to);
                moved.incrementAndGet();
            }
        });
        isExact(cache);
        over.set(true);
        moves.join();
        assertTrue(moved.get() >= KEYS / 4, moved + " slots were moved");
    }

    /** Keys of one slot that is moving, some of which have already been moved to its new master. */
    @Test void aSlotThatHasMovedHalf() throws InterruptedException {
        RedisNodes nodes = open(new RedisNodes(false));
        Cache<Long, Long> cache = open(RedisServer.manager(nodes.uri("app"))).createCache("{t}", types());
        Map<Long, Long> all = new HashMap<>();
        for (long key = 0; key < 40; key++) {
            all.put(key, key);
        }
        cache.putAll(all);
        int slot = RedisCluster.slot("{t}");
        RedisServer from = nodes.owner(slot), to = nodes.master((nodes.all.indexOf(from) + 1) % 3);
        nodes.beginMove(slot, from, to);
        nodes.moveKeys(slot, from, to, 20);
        assertEquals(all, cache.getAll(all.keySet()));
        assertEquals(41L, cache.invoke(40L, new Renewing.Add(), 41L));
        all.put(40L, 41L);
        for (long key = 0; key < 40; key++) {
            assertEquals(key + 1, cache.invoke(key, new Renewing.Add(), 1L));
            all.put(key, key + 1);
            assertTrue(cache.replace(key, key + 1, key + 1));
        }
        assertEquals(all, cache.getAll(all.keySet()));
        cache.putAll(Map.of(1L, 100L, 39L, 100L, 50L, 100L));
        all.putAll(Map.of(1L, 100L, 39L, 100L, 50L, 100L));
        assertEquals(Set.of(0L, 20L, 39L), cache.invokeAll(Set.of(0L, 20L, 39L), new Renewing.Read()).keySet());
        cache.removeAll(Set.of(0L, 20L, 38L));
        all.keySet().removeAll(Set.of(0L, 20L, 38L));
        assertEquals(all, cache.getAll(all.keySet()));
        while (nodes.moveKeys(slot, from, to, 100) > 0) { }
        nodes.endMove(slot, to);
        assertEquals(all, cache.getAll(all.keySet()));
    }

    /** Kills a master during the calls, and returns their outcomes. */
    private Ends killed(RedisNodes nodes, Cache<Long, Long> cache, boolean isCaughtUp) throws InterruptedException {
        Ends ends = new Ends(cache);
        RedisNodes.await(() -> ends.done.get() > THREADS * EACH / 8, "calls that aren't made");
        if (isCaughtUp) {
            nodes.master(0).ask("CLIENT", "PAUSE", 100_000, "WRITE");
            RedisNodes.await(() -> isCaughtUp(nodes.master(0), nodes.all.get(3)), "a replica that stays behind");
        }
        nodes.master(0).kill();
        RedisNodes.await(() -> isUp(nodes), "a cluster that stays down");
        long before = ends.done.get();
        assertTrue(before < THREADS * EACH, ends::toString);
        ends.await();
        assertTrue(ends.done.get() > before, "no call was done after the failover");
        return ends;
    }

    /** Returns whether a call waits at the master while its replica has everything that was done before. */
    private static boolean isCaughtUp(RedisServer master, RedisServer replica) {
        return master.number("clients", "blocked_clients") > 0
            && master.number("replication", "master_repl_offset") == replica.number("replication", "slave_repl_offset");
    }

    /** The replica has everything that was done, so nothing is lost; the calls in progress throw CallOutcomeUnknownException. */
    @Test void aMasterThatIsKilledWithItsReplicaCaughtUp() throws InterruptedException {
        RedisNodes nodes = open(new RedisNodes(true));
        Cache<Long, Long> cache = open(RedisServer.manager(nodes.uri("app"))).createCache("test", types());
        Ends ends = killed(nodes, cache, true);
        assertEquals(ends.done.get(), sum(cache), ends::toString);
        assertTrue(ends.unknown.get() > 0, ends::toString);
    }

    /** Replication is asynchronous: what the killed master acknowledged but hasn't replicated yet is lost, and no client learns of it. */
    @Test void aMasterThatIsKilled() throws InterruptedException {
        RedisNodes nodes = open(new RedisNodes(true));
        Cache<Long, Long> cache = open(RedisServer.manager(nodes.uri("app"))).createCache("test", types());
        Ends ends = killed(nodes, cache, false);
        long sum = sum(cache);
        String told = ends + ", the sum is " + sum;
        System.out.println("a master that is killed: " + told);
        assertTrue(sum <= ends.done.get() + ends.unknown.get(), told);
        assertTrue(sum >= ends.done.get() - 1_000, told);
    }

    private static boolean isUp(RedisNodes nodes) {
        return nodes.master(1).text("CLUSTER", "INFO").contains("cluster_state:ok")
            && nodes.master(1).text("CLUSTER", "NODES").lines().filter(it -> it.contains("master") && !it.contains("fail")).count() == 3;
    }

    @Test void aCallOnASlotThatNobodyHas() throws InterruptedException {
        RedisNodes nodes = open(new RedisNodes(false));
        Cache<Long, Long> cache = open(RedisServer.manager(nodes.uri("app"))).createCache("test", types());
        int slot = RedisCluster.slot("app:test:1");
        nodes.all.forEach(it -> it.ask("CLUSTER", "DELSLOTS", slot));
        CacheException e = org.junit.jupiter.api.Assertions.assertThrows(CacheException.class, () -> cache.put(1L, 1L));
        assertEquals(CallNotSentException.class, e.getClass());
    }

    @Test void slotsOfKeys() {
        assertEquals(12_739, RedisCluster.slot("123456789"));
        assertEquals(RedisCluster.slot("a"), RedisCluster.slot("x{a}y"));
        assertTrue(RedisCluster.slot("{}a") != RedisCluster.slot("{}b"));
    }
}
