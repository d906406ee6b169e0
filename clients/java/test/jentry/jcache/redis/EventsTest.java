package jentry.jcache.redis;

import static org.junit.jupiter.api.Assertions.assertEquals;
import static org.junit.jupiter.api.Assertions.assertThrows;
import static org.junit.jupiter.api.Assertions.assertTrue;

import java.util.List;
import java.util.Set;
import java.util.concurrent.TimeUnit;
import java.util.function.Consumer;
import java.util.function.Function;
import javax.cache.Cache;
import javax.cache.CacheException;
import javax.cache.CacheManager;
import javax.cache.configuration.Factory;
import javax.cache.expiry.CreatedExpiryPolicy;
import javax.cache.expiry.Duration;
import javax.cache.expiry.ExpiryPolicy;
import javax.cache.expiry.TouchedExpiryPolicy;
import jentry.jcache.Heard;
import jentry.jcache.Renewing;
import org.junit.jupiter.api.Test;

/** Tests listeners to the changes of any client, by the keyspace notifications of Redis. */
class EventsTest extends WithRedis {
    private static final long FIRST_MILLIS = 150, MOST_MILLIS = 20_000;

    private final Heard heard = new Heard(0);

    private Cache<Long, Long> listening(RedisServer server, String events) {
        return manager(server, "jentry.events", events)
            .createCache("test", types().addCacheEntryListenerConfiguration(heard.by(false, false)));
    }

    private void hears(String... wanted) throws InterruptedException {
        RedisNodes.await(() -> heard.all.size() >= wanted.length, "events that don't come");
        assertEquals(List.of(wanted), heard.all);
        heard.all.clear();
    }

    @Test void changesOfAnybody() throws InterruptedException {
        RedisServer server = open(new RedisServer("--notify-keyspace-events", "K$gxn"));
        Cache<Long, Long> listening = listening(server, "server"), other = cache(server);
        other.put(1L, 5L);
        hears("CREATED 1 5 null");
        other.put(1L, 6L);
        hears("UPDATED 1 6 null");
        listening.put(1L, 7L);
        hears("UPDATED 1 7 null");
        server.ask("INCRBY", "app:test:1", 3);
        hears("UPDATED 1 10 null");
        other.invoke(1L, new Renewing.Add(), 1L);
        hears("UPDATED 1 11 null");
        other.remove(1L);
        hears("REMOVED 1 null null");
        other.putAll(java.util.Map.of(2L, 2L));
        hears("CREATED 2 2 null");
        other.clear();
        hears("REMOVED 2 null null");
        server.ask("SET", "app:test:3", 3);
        hears("CREATED 3 3 null");
        server.ask("PEXPIRE", "app:test:3", 200);
        hears("EXPIRED 3 null null");
        server.ask("SET", "app:other:1", 1);
        server.ask("SET", "app:test:x", 1);
        server.ask("SET", "app:test:4", 4);
        hears("CREATED 4 4 null");
    }

    /** Calls, and the events of them and of the expiry that follows. */
    private record Step(Consumer<Cache<Long, Long>> calls, List<String> events) { }

    private static Step step(Consumer<Cache<Long, Long>> calls, String... events) {
        return new Step(calls, List.of(events));
    }

    /**
     * Checks the events of a cache that hears of expiries and whose entries expire after a short time. Where the machine is too busy for the calls of a step
     * within that time, it begins again with twice the time.
     */
    private void hearsExpiries(RedisServer server, Function<Duration, Factory<? extends ExpiryPolicy>> by, boolean wantsOld, Step... steps)
        throws InterruptedException {
        long millis = FIRST_MILLIS;
        while (!isHeardInTime(server, by.apply(new Duration(TimeUnit.MILLISECONDS, millis)), wantsOld, millis, steps)) {
            millis *= 2;
            assertTrue(millis <= MOST_MILLIS, "the machine is too busy");
        }
    }

    private static boolean isHeardInTime(RedisServer server, Factory<? extends ExpiryPolicy> policy, boolean wantsOld, long millis, Step... steps)
        throws InterruptedException {
        server.ask("FLUSHALL");
        Heard own = new Heard(0);
        try (CacheManager manager = server.manager("app", "jentry.events", "expired")) {
            Cache<Long, Long> listening = manager.createCache("test",
                types().setExpiryPolicyFactory(policy).addCacheEntryListenerConfiguration(own.by(wantsOld, true)));
            for (Step step : steps) {
                long from = System.nanoTime();
                step.calls.accept(listening);
                if (System.nanoTime() - from >= TimeUnit.MILLISECONDS.toNanos(millis)) {
                    return false;
                }
                RedisNodes.await(() -> own.all.size() >= step.events.size(), "events that don't come");
                assertEquals(step.events, own.all);
                own.all.clear();
            }
        }
        return true;
    }

    @Test void ownChangesAndExpiries() throws InterruptedException {
        RedisServer server = open(new RedisServer("--notify-keyspace-events", "Kx"));
        Cache<Long, Long> other = cache(server);
        hearsExpiries(server, CreatedExpiryPolicy::factoryOf, true, step(it -> {
            other.put(2L, 1L);
            it.put(1L, 5L);
        }, "CREATED 1 5 null", "EXPIRED 1 5 5"));
    }

    @Test void anExpiryHasTheOldValueThatIsRequired() throws InterruptedException {
        RedisServer server = open(new RedisServer("--notify-keyspace-events", "Kx"));
        hearsExpiries(server, TouchedExpiryPolicy::factoryOf, true, step(it -> {
            it.put(1L, 5L);
            it.put(1L, 6L);
        }, "CREATED 1 5 null", "UPDATED 1 6 5", "EXPIRED 1 6 6"), step(it -> {
            it.invoke(1L, new Renewing.Add(), 7L);
        }, "CREATED 1 7 null", "EXPIRED 1 7 7"), step(it -> {
            it.putAll(java.util.Map.of(1L, 8L));
            it.remove(1L);
            server.ask("SET", "app:test:1", 9, "PX", 50);
        }, "CREATED 1 8 null", "REMOVED 1 8 8", "EXPIRED 1 null null"), step(it -> {
            server.ask("SET", "app:test:1", 9);
            assertEquals(9L, it.get(1L));
        }, "EXPIRED 1 9 9"));
    }

    @Test void anExpiryHasNoOldValueWhereNobodyRequiresIt() throws InterruptedException {
        RedisServer server = open(new RedisServer("--notify-keyspace-events", "Kx"));
        hearsExpiries(server, TouchedExpiryPolicy::factoryOf, false, step(it -> it.put(1L, 5L), "CREATED 1 5 null", "EXPIRED 1 null null"));
    }

    @Test void aServerThatSendsTooLittleIsNamed() {
        RedisServer server = open(new RedisServer("--notify-keyspace-events", "Kx"));
        String message = assertThrows(CacheException.class, () -> listening(server, "server")).getMessage();
        assertTrue(message.contains("lacks $gn") && message.contains("CONFIG SET notify-keyspace-events K$gxn"), message);
        listening(open(new RedisServer("--notify-keyspace-events", "KAn")), "server");
    }

    @Test void aLostConnectionIsMadeAnew() throws InterruptedException {
        RedisServer server = open(new RedisServer("--notify-keyspace-events", "K$gxn"));
        Cache<Long, Long> listening = listening(server, "server");
        listening.put(1L, 1L);
        hears("CREATED 1 1 null");
        assertEquals(1L, server.ask("CLIENT", "KILL", "TYPE", "pubsub"));
        RedisNodes.await(() -> server.text("PUBSUB", "NUMPAT").equals("1"), "no new connection");
        listening.put(1L, 2L);
        hears("UPDATED 1 2 null");
    }

    @Test void everyMasterIsHeard() throws InterruptedException {
        RedisNodes nodes = open(new RedisNodes(false));
        Cache<Long, Long> listening = open(RedisServer.manager(nodes.uri("app"), "jentry.events", "server"))
            .createCache("test", types().addCacheEntryListenerConfiguration(heard.by(false, false)));
        for (long key = 0; key < 30; key++) {
            listening.put(key, key);
        }
        RedisNodes.await(() -> heard.all.size() == 30, "events that don't come");
        assertEquals(30, Set.copyOf(heard.all).size());
        assertTrue(heard.all.stream().allMatch(it -> it.startsWith("CREATED")));
    }
}
