package jentry.jcache.redis;

import static org.junit.jupiter.api.Assertions.assertEquals;
import static org.junit.jupiter.api.Assertions.assertNull;
import static org.junit.jupiter.api.Assertions.assertThrows;
import static org.junit.jupiter.api.Assertions.assertTrue;

import java.lang.management.ManagementFactory;
import java.nio.file.Files;
import java.util.List;
import java.util.Map;
import java.util.Objects;
import java.util.Properties;
import java.util.Set;
import java.util.concurrent.TimeUnit;
import java.util.concurrent.atomic.AtomicBoolean;
import java.util.concurrent.atomic.AtomicLong;
import java.util.function.Consumer;
import javax.cache.Cache;
import javax.cache.CacheException;
import javax.cache.CacheManager;
import javax.cache.configuration.MutableConfiguration;
import javax.cache.expiry.AccessedExpiryPolicy;
import javax.cache.expiry.CreatedExpiryPolicy;
import javax.cache.expiry.Duration;
import javax.cache.processor.EntryProcessor;
import javax.management.JMException;
import javax.management.MBeanServer;
import javax.management.ObjectName;
import jentry.jcache.JentryCache;
import jentry.jcache.Renewing;
import jentry.jcache.Team;
import jentry.jcache.impl.Options;
import org.junit.jupiter.api.AfterEach;
import org.junit.jupiter.api.BeforeEach;
import org.junit.jupiter.api.Test;

/** Tests the near cache of a cache in Redis. */
class NearTest extends WithStandInModule {
    private static final String K = "app:test:";

    private Cache<Long, Long> near;

    /** Where the machine is busy the server's word may take long, and the tests count the reads that a trusted near cache spares. */
    static final long PATIENT_NANOS = TimeUnit.MINUTES.toNanos(10);

    @BeforeEach void fill() {
        Invalidations.trust(PATIENT_NANOS);
        server.ask("MSET", K + 1, 5, K + 2, 6);
        near = cache("jentry.near", "100");
    }

    @AfterEach void trustAsByDefault() {
        Invalidations.trust(Invalidations.TRUST_NANOS);
    }

    private static MutableConfiguration<Long, Long> types() {
        return new MutableConfiguration<Long, Long>().setTypes(Long.class, Long.class).setStatisticsEnabled(true);
    }

    private Cache<Long, Long> cache(String... properties) {
        return manager(properties).createCache("test", types());
    }

    /** Returns how many reads the server has executed. */
    private long reads() {
        return server.text("INFO", "commandstats").lines().filter(it -> it.matches("cmdstat_(get|getex|mget):.*"))
            .mapToLong(it -> Long.parseLong(it.replaceFirst("[a-z_]*:calls=([0-9]+),.*", "$1"))).sum();
    }

    /** Expects the near cache to answer, or not to. */
    private void get(Cache<Long, Long> from, boolean isNear, Long wanted, long key) {
        long before = reads();
        assertEquals(wanted, from.get(key));
        assertEquals(isNear ? 0 : 1, reads() - before, "reads at the server of get(" + key + ")");
    }

    private boolean isAnsweredNear(long key, long wanted) {
        long before = reads();
        return near.get(key) == wanted && reads() == before;
    }

    /** Returns a number of the statistics of the only cache. */
    private static Object statistic(String name) throws JMException {
        MBeanServer beans = ManagementFactory.getPlatformMBeanServer();
        return beans.getAttribute(beans.queryNames(new ObjectName("javax.cache:type=CacheStatistics,*"), null).iterator().next(), name);
    }

    @Test void aSecondGetAsksNobodyAndIsAHit() throws JMException {
        get(near, false, 5L, 1);
        get(near, true, 5L, 1);
        get(near, true, 5L, 1);
        get(near, false, null, 3);
        get(near, false, null, 3);
        assertEquals(List.of(3L, 2L, 60f), List.of(statistic("CacheHits"), statistic("CacheMisses"), statistic("CacheHitPercentage")));
    }

    @Test void itIsOffByDefault() {
        Cache<Long, Long> plain = cache();
        get(plain, false, 5L, 1);
        get(plain, false, 5L, 1);
        assertEquals(1, server.number("clients", "tracking_clients"), "that of the other cache");
    }

    @Test void getAllAndGetAsyncAreAnsweredToo() throws JMException {
        near.get(1L);
        long before = reads();
        assertEquals(5L, near.unwrap(JentryCache.class).getAsync(1L).join());
        assertEquals(Map.of(1L, 5L), near.getAll(Set.of(1L)));
        assertEquals(before, reads());
        assertEquals(Map.of(1L, 5L, 2L, 6L), near.getAll(Set.of(1L, 2L, 3L)));
        assertEquals(before + 1, reads());
        assertEquals(List.of(5L, 1L), List.of(statistic("CacheHits"), statistic("CacheMisses")));
    }

    @Test void whatOthersChangeIsReadAgain() throws InterruptedException {
        Object[][] changes = {{"SET", K + 1, 6}, {"INCRBY", K + 1, 1}, {"DEL", K + 1}, {"SET", K + 1, 8, "PX", 60_000}, {"FLUSHALL"}};
        Long[] wanted = {6L, 7L, null, 8L, null};
        for (int i = 0; i < changes.length; i++) {
            near.get(1L);
            server.ask(changes[i]);
            Long then = wanted[i];
            RedisNodes.await(() -> Objects.equals(then, near.get(1L)), "a change that isn't heard of");
        }
    }

    @Test void aRunByAnotherIsHeardOf() throws Exception {
        server.ask("SET", K + 1, 50_000);
        near.get(1L);
        RedisSocket socket = new RedisSocket("127.0.0.1:" + module.port(), new Options(server.uri(""), new Properties()));
        open(socket::close);
        byte[] file = Renewing.Add.class.getResourceAsStream("Renewing$Add.class").readAllBytes();
        Object id = ((Object[]) socket.ask("JENTRY.DEFINE", file))[0];
        for (long i = 1; i <= 20; i++) {
            long wanted = 50_000 + i;
            assertTrue(socket.ask("JENTRY.APPLY", -2, -1, -1, "do", id, K + 1, 1) instanceof Object[]);
            RedisNodes.await(() -> near.get(1L) == wanted, "a run that isn't heard of");
        }
    }

    /** The server's messages are lost, so only the near cache itself can forget the value. */
    @Test void noGetReturnsAValueFromBeforeAnOwnWrite() {
        Cache<Long, Long> plain = cache();
        EntryProcessor<Long, Long, Long> add = new Renewing.Add();
        List<Consumer<Cache<Long, Long>>> writes = List.of(it -> it.put(1L, 6L), it -> it.getAndPut(1L, 7L), it -> it.replace(1L, 8L),
            it -> it.replace(1L, 8L, 9L), it -> it.getAndReplace(1L, 10L), it -> it.putAll(Map.of(1L, 11L)), it -> it.invoke(1L, add, 1L),
            it -> it.invokeAll(Set.of(1L), add, 1L), it -> it.unwrap(JentryCache.class).invokeAsync(1L, add, 1L).join(),
            it -> it.unwrap(JentryCache.class).putAsync(1L, 15L).join(), it -> it.remove(1L, 15L), it -> it.putIfAbsent(1L, 16L), it -> it.remove(1L),
            it -> it.put(1L, 17L), it -> it.getAndRemove(1L), it -> it.put(1L, 18L), it -> it.removeAll(Set.of(1L)), it -> it.put(1L, 19L), it -> it.clear(),
            it -> it.put(1L, 20L), it -> it.removeAll());
        Long[] wanted = {6L, 7L, 8L, 9L, 10L, 11L, 12L, 13L, 14L, 15L, null, 16L, null, 17L, null, 18L, null, 19L, null, 20L, null};
        module.drop(true);
        for (Cache<Long, Long> writer : List.of(near, plain)) {
            for (int i = 0; i < wanted.length; i++) {
                writes.get(i).accept(writer);
                get(near, false, wanted[i], 1);
                if (wanted[i] != null) {
                    get(near, true, wanted[i], 1);
                }
            }
        }
    }

    @Test void threadsNeverSeeTheirKeyGoBack() throws InterruptedException {
        Cache<Long, Long> plain = cache();
        AtomicLong written = new AtomicLong();
        AtomicBoolean isOver = new AtomicBoolean();
        near.put(1L, 0L);
        Team readers = Team.of(3, t -> {
            for (long last = 0; !isOver.get();) {
                long least = written.get(), value = near.get(1L);
                assertTrue(value >= least && value >= last, value + " after " + least + " was written and " + last + " was read");
                last = value;
            }
        });
        Team.of(1, t -> {
            for (long i = 1; i <= 200; i++) {
                (i % 2 == 0 ? near : plain).put(1L, i);
                written.set(i);
            }
        }).join();
        isOver.set(true);
        readers.join();
    }

    @Test void itIsBounded() {
        for (long key = 0; key < 30; key++) {
            server.ask("SET", "app:small:" + key, key);
        }
        Cache<Long, Long> small = manager("jentry.near", "10").createCache("small", types());
        for (long key = 0; key < 30; key++) {
            get(small, false, key, key);
        }
        for (long key = 20; key < 30; key++) {
            get(small, true, key, key);
        }
        for (long key = 0; key < 10; key++) {
            get(small, false, key, key);
        }
    }

    @Test void anEntryThatHasExpiredIsntReturned() throws InterruptedException {
        module.drop(true);
        server.ask("SET", K + 1, 5, "PX", 4_000);
        get(near, false, 5L, 1);
        get(near, true, 5L, 1);
        Thread.sleep(4_050);
        get(near, false, null, 1);
    }

    @Test void anExpiryPolicyThatCountsAccessesAsksEachTime() {
        Duration minute = new Duration(TimeUnit.MINUTES, 1);
        server.ask("SET", "app:accessed:1", 5, "PX", 60_000);
        server.ask("SET", "app:created:1", 5, "PX", 60_000);
        CacheManager manager = manager("jentry.near", "100");
        Cache<Long, Long> accessed = manager.createCache("accessed", types().setExpiryPolicyFactory(AccessedExpiryPolicy.factoryOf(minute)));
        Cache<Long, Long> created = manager.createCache("created", types().setExpiryPolicyFactory(CreatedExpiryPolicy.factoryOf(minute)));
        get(accessed, false, 5L, 1);
        get(accessed, false, 5L, 1);
        get(created, false, 5L, 1);
        get(created, true, 5L, 1);
    }

    @Test void aLostConnectionDropsEverything() throws Exception {
        get(near, false, 5L, 1);
        module.drop(true);
        server.ask("SET", K + 1, 6);
        get(near, true, 5L, 1);
        assertEquals(1, module.cutThoseThatListen());
        RedisNodes.await(() -> near.get(1L) == 6, "a value from before the connection was lost");
        module.drop(false);
        RedisNodes.await(() -> isAnsweredNear(1, 6), "no near cache after the connection is there again");
    }

    /** The messages stop without an end of the connection, as where a network is broken. */
    @Test void aValueIsReturnedForTwoSecondsWithoutWordFromTheServer() throws Exception {
        Invalidations.trust(Invalidations.TRUST_NANOS);
        get(near, false, 5L, 1);
        module.hold(true);
        long begin = System.nanoTime(), last = begin;
        server.ask("SET", K + 1, 6);
        // Each get is counted from its begin: what a busy machine takes between its reading of the clock and its end isn't the near cache's.
        for (long from = begin; near.get(1L) == 5; from = System.nanoTime()) {
            last = from;
            assertTrue(last - begin < TimeUnit.SECONDS.toNanos(30), "still the value from before");
            Thread.sleep(1);
        }
        assertTrue(last - begin <= TimeUnit.MILLISECONDS.toNanos(2_000), (last - begin) / 1_000_000 + " ms");
    }

    @Test void aServerThatIsStartedAgainIsUsedAgain() throws Exception {
        near.get(1L);
        server.kill();
        RedisNodes.await(() -> {
            try {
                near.get(1L);
                return false;
            } catch (CacheException e) {
                return true;
            }
        }, "a value of a server that has ended");
        Files.delete(server.folder.resolve("log"));
        server.start();
        RedisNodes.await(() -> {
            try {
                return near.get(1L) == null;
            } catch (CacheException e) {
                return false;
            }
        }, "no new connection");
        near.put(1L, 6L);
        RedisNodes.await(() -> isAnsweredNear(1, 6), "no near cache at the new server");
    }

    @Test void aServerWithoutClientSideCachingIsNamed() {
        server.ask("ACL", "SETUSER", "default", "-client|tracking");
        String message = assertThrows(CacheException.class, () -> cache("jentry.near", "5")).getMessage();
        assertTrue(message.contains("jentry.near") && message.contains("NOPERM"), message);
        assertEquals(5L, cache().get(1L));
    }

    @Test void itsConnectionEndsWithItsCache() throws InterruptedException {
        long before = server.number("clients", "tracking_clients");
        assertEquals(1, before);
        near.get(1L);
        near.close();
        RedisNodes.await(() -> server.number("clients", "tracking_clients") == 0, "a connection that stays");
        assertNull(cache("jentry.near", "100").get(3L));
    }
}
