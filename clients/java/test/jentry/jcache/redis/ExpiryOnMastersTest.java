package jentry.jcache.redis;

import org.junit.jupiter.api.AfterAll;
import org.junit.jupiter.api.BeforeAll;
import org.junit.jupiter.api.BeforeEach;

/** The tests of ExpiryTest on three masters. */
class ExpiryOnMastersTest extends ExpiryTest {
    private static RedisNodes nodes;

    @BeforeAll static void startNodes() throws InterruptedException {
        nodes = new RedisNodes(false);
    }

    @AfterAll static void stopNodes() {
        if (nodes != null) {
            nodes.close();
        }
    }

    @BeforeEach @Override void start() throws InterruptedException {
        nodes.all.forEach(it -> it.ask("FLUSHALL"));
        server = nodes.owner(RedisCluster.slot("app:timed:1"));
        manager = open(RedisServer.manager(nodes.uri("app")));
    }
}
