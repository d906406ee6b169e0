package jentry.jcache.redis;

import static org.junit.jupiter.api.Assertions.assertEquals;
import static org.junit.jupiter.api.Assertions.assertTrue;

import javax.cache.Cache;
import org.junit.jupiter.api.AfterEach;
import org.junit.jupiter.api.BeforeEach;
import org.junit.jupiter.api.Test;

/** Tests the near cache of a cache on three masters. */
class NearOnNodesTest extends WithRedis {
    private static final int KEYS = 30;

    private RedisNodes nodes;

    @BeforeEach void trustForLong() {
        Invalidations.trust(NearTest.PATIENT_NANOS);
    }

    @AfterEach void trustAsByDefault() {
        Invalidations.trust(Invalidations.TRUST_NANOS);
    }

    /** Sets an entry at the master that has its slot; the others redirect. */
    private void set(long key, long value) {
        long done = nodes.all.stream().filter(it -> it.text("SET", "app:test:" + key, value).contains("OK")).count();
        assertEquals(1, done);
    }

    private long reads() {
        return nodes.all.stream().flatMap(it -> it.text("INFO", "commandstats").lines()).filter(it -> it.startsWith("cmdstat_get:"))
            .mapToLong(it -> Long.parseLong(it.replaceFirst("[a-z_]*:calls=([0-9]+),.*", "$1"))).sum();
    }

    @Test void theChangesAtEachMasterAreHeardOf() throws InterruptedException {
        nodes = open(new RedisNodes(false));
        for (long key = 0; key < KEYS; key++) {
            set(key, 5);
        }
        assertTrue(nodes.all.stream().allMatch(it -> (Long) it.ask("DBSIZE") > 0), "each master has a part of the keys");
        Cache<Long, Long> near = open(RedisServer.manager(nodes.uri("app"), "jentry.near", "100")).createCache("test", types());
        for (int turn = 0; turn < 2; turn++) {
            assertEquals(turn * KEYS, reads());
            for (long key = 0; key < KEYS; key++) {
                assertEquals(5L, near.get(key));
            }
        }
        assertEquals(KEYS, reads());
        for (long key = 0; key < KEYS; key++) {
            set(key, 6);
        }
        for (long key = 0; key < KEYS; key++) {
            long at = key;
            RedisNodes.await(() -> near.get(at) == 6, "a change that isn't heard of");
        }
    }
}
