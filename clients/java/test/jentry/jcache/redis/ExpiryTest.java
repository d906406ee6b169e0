package jentry.jcache.redis;

import static org.junit.jupiter.api.Assertions.assertEquals;
import static org.junit.jupiter.api.Assertions.assertNull;
import static org.junit.jupiter.api.Assertions.assertTrue;

import java.util.ArrayList;
import java.util.HashMap;
import java.util.List;
import java.util.Map;
import java.util.Set;
import java.util.concurrent.CopyOnWriteArrayList;
import java.util.concurrent.TimeUnit;
import java.util.stream.Collectors;
import java.util.stream.LongStream;
import javax.cache.Cache;
import javax.cache.CacheManager;
import javax.cache.configuration.Factory;
import javax.cache.expiry.AccessedExpiryPolicy;
import javax.cache.expiry.CreatedExpiryPolicy;
import javax.cache.expiry.Duration;
import javax.cache.expiry.EternalExpiryPolicy;
import javax.cache.expiry.ExpiryPolicy;
import javax.cache.expiry.ModifiedExpiryPolicy;
import javax.cache.expiry.TouchedExpiryPolicy;
import jentry.jcache.Renewing;
import org.junit.jupiter.api.BeforeEach;
import org.junit.jupiter.api.Test;

/**
 * Tests times to live. The time after a call is read with PTTL, so only the clock of Redis matters. Each entry starts with half an hour, and the policy sets an
 * hour.
 */
class ExpiryTest extends WithRedis {
    private static final long HOUR = TimeUnit.HOURS.toMillis(1);
    private static final long HALF = HOUR / 2;
    private static final Duration TIME = Duration.ONE_HOUR;

    /** The server of the key 1. */
    RedisServer server;
    CacheManager manager;

    @BeforeEach void start() throws Exception {
        server = open(new RedisServer());
        manager = manager(server);
    }

    private Cache<Long, Long> create(Factory<? extends ExpiryPolicy> policy) {
        manager.destroyCache("timed");
        return manager.createCache("timed", types().setExpiryPolicyFactory(policy));
    }

    /** Describes the time to live of an entry: an hour, half of it, none, or no entry. */
    private String time(long key) {
        long left = (Long) server.ask("PTTL", "app:timed:" + key);
        return left == -2 ? "gone" : left == -1 ? "eternal" : left > HALF ? "hour" : "half";
    }

    interface Work {
        void on(Cache<Long, Long> cache);
    }

    /** Returns the time after a call on the key 1, which has the value 5 and half an hour, or no entry. */
    private String behind(Cache<Long, Long> cache, boolean exists, Work work) {
        server.ask("DEL", "app:timed:1");
        if (exists) {
            server.ask("SET", "app:timed:1", 5, "PX", HALF);
        }
        work.on(cache);
        return time(1);
    }

    private static final Map<String, Work> CREATING = Map.of("put", it -> it.put(1L, 6L), "getAndPut", it -> it.getAndPut(1L, 6L),
        "putIfAbsent", it -> it.putIfAbsent(1L, 6L), "putAll", it -> it.putAll(Map.of(1L, 6L)), "invoke", it -> it.invoke(1L, new Renewing.Add(), 1L),
        "invokeAll", it -> it.invokeAll(Set.of(1L), new Renewing.Add(), 1L));
    private static final Map<String, Work> UPDATING = Map.of("put", it -> it.put(1L, 6L), "getAndPut", it -> it.getAndPut(1L, 6L),
        "putAll", it -> it.putAll(Map.of(1L, 6L)), "replace", it -> it.replace(1L, 6L), "getAndReplace", it -> it.getAndReplace(1L, 6L),
        "replaceIf", it -> it.replace(1L, 5L, 6L), "the same value", it -> it.replace(1L, 5L, 5L),
        "invoke", it -> it.invoke(1L, new Renewing.Add(), 1L), "invoke that sets the same value", it -> it.invoke(1L, new Renewing.Sets(), 5L),
        "invokeAll that sets the same value", it -> it.invokeAll(Set.of(1L), new Renewing.Sets(), 5L));
    private static final Map<String, Work> ACCESSING = Map.of("replaceIf another by itself", it -> it.replace(1L, 4L, 4L), "get", it -> it.get(1L),
        "getAll", it -> it.getAll(Set.of(1L)), "replaceIf another", it -> it.replace(1L, 4L, 6L), "removeIf another", it -> it.remove(1L, 4L),
        "invoke", it -> it.invoke(1L, new Renewing.Read()), "iterator", it -> it.iterator().next());
    private static final Map<String, Work> LEAVING = Map.of("containsKey", it -> it.containsKey(1L), "putIfAbsent", it -> it.putIfAbsent(1L, 6L));

    private void allAre(String wanted, Cache<Long, Long> cache, boolean exists, Map<String, Work> works) {
        works.forEach((name, work) -> assertEquals(wanted, behind(cache, exists, work), name));
    }

    private void times(Factory<? extends ExpiryPolicy> policy, String created, String updated, String accessed) {
        Cache<Long, Long> cache = create(policy);
        allAre(created, cache, false, CREATING);
        allAre(updated, cache, true, UPDATING);
        allAre(accessed, cache, true, ACCESSING);
        allAre("half", cache, true, LEAVING);
    }

    /** putAll on a cache whose entries never expire sends MSET, which clears a time to live that another client set. */
    @Test void eternal() {
        Cache<Long, Long> cache = create(EternalExpiryPolicy.factoryOf());
        allAre("eternal", cache, false, CREATING);
        Map<String, Work> single = new HashMap<>(UPDATING);
        single.remove("putAll");
        allAre("half", cache, true, single);
        assertEquals("eternal", behind(cache, true, UPDATING.get("putAll")));
        allAre("half", cache, true, ACCESSING);
        allAre("half", cache, true, LEAVING);
    }

    @Test void created() {
        times(CreatedExpiryPolicy.factoryOf(TIME), "hour", "half", "half");
    }

    @Test void modified() {
        times(ModifiedExpiryPolicy.factoryOf(TIME), "hour", "hour", "half");
    }

    @Test void accessed() {
        times(AccessedExpiryPolicy.factoryOf(TIME), "hour", "half", "hour");
    }

    @Test void touched() {
        times(TouchedExpiryPolicy.factoryOf(TIME), "hour", "hour", "hour");
    }

    /** A custom policy that records which of its methods are called. */
    private static final class Own implements ExpiryPolicy {
        final List<String> asked = new CopyOnWriteArrayList<>();
        final Duration time;

        Own(Duration time) {
            this.time = time;
        }

        @Override public Duration getExpiryForCreation() {
            asked.add("creation");
            return time;
        }

        @Override public Duration getExpiryForUpdate() {
            asked.add("update");
            return time;
        }

        @Override public Duration getExpiryForAccess() {
            asked.add("access");
            return Duration.ETERNAL;
        }
    }

    @Test void aPolicyOfOnesOwn() {
        times(() -> new Own(TIME), "hour", "hour", "eternal");
    }

    @Test void ofAPolicyOfOnesOwnTheMethodThatCountsIsAskedAlone() {
        Own own = new Own(TIME);
        Cache<Long, Long> cache = create(() -> own);
        Map.of("creation", CREATING, "update", UPDATING, "access", ACCESSING).forEach((method, works) -> works.forEach((name, work) -> {
            own.asked.clear();
            behind(cache, !method.equals("creation"), work);
            assertEquals(List.of(method), own.asked, name);
        }));
        own.asked.clear();
        allAre("half", cache, true, LEAVING);
        cache.get(77L);
        cache.remove(77L);
        assertEquals(List.of(), own.asked);
    }

    @Test void zero() {
        Cache<Long, Long> atOnce = create(CreatedExpiryPolicy.factoryOf(Duration.ZERO));
        allAre("gone", atOnce, false, CREATING);
        Cache<Long, Long> onAccess = create(AccessedExpiryPolicy.factoryOf(Duration.ZERO));
        server.ask("SET", "app:timed:1", 5);
        assertEquals(5L, onAccess.get(1L));
        assertNull(onAccess.get(1L));
    }

    /** Long enough for the steps in between. On a busy machine they may take longer: then the test begins again with twice the time. */
    private static final long SHORT_MILLIS = 1_200;
    private static final long MOST_MILLIS = 40_000;

    /** The policies, each with those of six keys that exist when the time has passed since their creation, but not since the later calls. */
    private static Map<Factory<? extends ExpiryPolicy>, String> clockRows(Duration time) {
        return Map.of(CreatedExpiryPolicy.factoryOf(time), "------", ModifiedExpiryPolicy.factoryOf(time), "-2-4-6",
            AccessedExpiryPolicy.factoryOf(time), "1---5-", TouchedExpiryPolicy.factoryOf(time), "12-456",
            EternalExpiryPolicy.factoryOf(), "123456", () -> new Own(time), "12-456");
    }

    @Test void entriesExpireByTheServersClock() throws InterruptedException {
        for (long millis = SHORT_MILLIS; !expireInTime(millis); millis *= 2) {
            assertTrue(millis < MOST_MILLIS, "the machine is too busy");
        }
    }

    /** Checks which entries exist at the end. Returns false if the calls took too long. */
    private boolean expireInTime(long millis) throws InterruptedException {
        List<Cache<Long, Long>> caches = new ArrayList<>();
        List<String> wanted = new ArrayList<>();
        clockRows(new Duration(TimeUnit.MILLISECONDS, millis)).forEach((policy, live) -> {
            caches.add(manager.createCache("clock" + caches.size() + "of" + millis, types().setExpiryPolicyFactory(policy)));
            wanted.add(live);
        });
        List<String> seen = seenOf(caches, millis);
        if (seen != null) {
            assertEquals(wanted, seen);
        }
        return seen != null;
    }

    /** Creates the keys, makes the calls, and returns which keys exist at the end, or null if this took too long. */
    private static List<String> seenOf(List<Cache<Long, Long>> caches, long millis) throws InterruptedException {
        long from = System.nanoTime();
        for (Cache<Long, Long> it : caches) {
            it.clear();
            LongStream.of(1, 2, 3).forEach(key -> it.put(key, 1L));
            it.invoke(4L, new Renewing.Add(), 1L);
            it.putAll(Map.of(5L, 1L, 6L, 1L));
        }
        Thread.sleep(millis * 5 / 8);
        long called = System.nanoTime();
        for (Cache<Long, Long> it : caches) {
            it.get(1L);
            it.put(2L, 2L);
            it.invoke(4L, new Renewing.Add(), 1L);
            it.getAll(Set.of(5L));
            it.replace(6L, 1L, 2L);
        }
        boolean isEarly = System.nanoTime() - from < TimeUnit.MILLISECONDS.toNanos(millis);
        Thread.sleep(millis * 5 / 8);
        List<String> seen = caches.stream().map(ExpiryTest::live).toList();
        return isEarly && System.nanoTime() - called < TimeUnit.MILLISECONDS.toNanos(millis) ? seen : null;
    }

    private static String live(Cache<Long, Long> cache) {
        return LongStream.rangeClosed(1, 6).mapToObj(key -> cache.containsKey(key) ? "" + key : "-").collect(Collectors.joining());
    }
}
