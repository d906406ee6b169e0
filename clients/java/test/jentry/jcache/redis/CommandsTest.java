package jentry.jcache.redis;

import static org.junit.jupiter.api.Assertions.assertEquals;
import static org.junit.jupiter.api.Assertions.assertNull;
import static org.junit.jupiter.api.Assertions.assertTrue;

import java.util.ArrayList;
import java.util.Iterator;
import java.util.List;
import java.util.Map;
import java.util.Set;
import java.util.concurrent.TimeUnit;
import javax.cache.Cache;
import javax.cache.CacheManager;
import javax.cache.configuration.Factory;
import javax.cache.configuration.MutableConfiguration;
import javax.cache.expiry.AccessedExpiryPolicy;
import javax.cache.expiry.CreatedExpiryPolicy;
import javax.cache.expiry.Duration;
import javax.cache.expiry.ExpiryPolicy;
import javax.cache.expiry.ModifiedExpiryPolicy;
import javax.cache.expiry.TouchedExpiryPolicy;
import javax.cache.integration.CompletionListenerFuture;
import jentry.jcache.Heard;
import jentry.jcache.Numbers;
import jentry.jcache.Renewing;
import org.junit.jupiter.api.BeforeEach;
import org.junit.jupiter.api.Test;

/** Tests which commands each method sends, on one server. They are all that a method costs. */
class CommandsTest extends WithRedis {
    private static final String K = "app:test:1";
    private static final String HOUR = "3600000";
    private static final String SCAN = "SCAN 0 MATCH app:test:* COUNT 500 TYPE string";
    private static final Duration TIME = new Duration(TimeUnit.HOURS, 1);

    /** The server of the key 1. */
    RedisServer server;
    CacheManager manager;
    Monitor monitor;
    Cache<Long, Long> cache;

    interface Work {
        void on(Cache<Long, Long> cache) throws Exception;
    }

    @BeforeEach void start() throws Exception {
        server = open(new RedisServer());
        manager = manager(server);
        define();
    }

    /** Creates the cache, and defines its classes at the server. */
    void define() throws Exception {
        create(types());
        cache.invoke(1L, new Renewing.Add(), 1L);
        cache.invoke(1L, new Renewing.Read());
        cache.replace(1L, 1L, 1L);
        cache.remove(1L, 7L);
        monitor = open(new Monitor(server));
    }

    private void create(MutableConfiguration<Long, Long> configuration) {
        if (cache != null) {
            cache.close();
        }
        cache = manager.createCache("test", configuration);
    }

    private void create(Factory<? extends ExpiryPolicy> policy) {
        create(types().setExpiryPolicyFactory(policy));
    }

    /** Checks the commands of a call on the key 1, which has the value 5 or no entry. */
    private void sends(boolean exists, Work work, String... wanted) throws Exception {
        server.ask("DEL", K);
        if (exists) {
            server.ask("SET", K, 5, "PX", TIME.getTimeUnit().toMillis(2));
        }
        monitor.commands();
        work.on(cache);
        assertEquals(List.of(wanted), monitor.commands());
    }

    private void sends(Work work, String... wanted) throws Exception {
        sends(true, work, wanted);
    }

    @Test void methodsOnOneKeyOfEntriesThatNeverExpire() throws Exception {
        sends(it -> it.get(1L), "GET " + K);
        sends(it -> it.containsKey(1L), "EXISTS " + K);
        sends(it -> it.put(1L, 6L), "SET " + K + " 6 KEEPTTL");
        sends(it -> it.getAndPut(1L, 6L), "SET " + K + " 6 GET KEEPTTL");
        sends(it -> it.putIfAbsent(1L, 6L), "SET " + K + " 6 NX");
        sends(it -> it.replace(1L, 6L), "SET " + K + " 6 XX KEEPTTL");
        sends(it -> it.getAndReplace(1L, 6L), "SET " + K + " 6 XX GET KEEPTTL");
        sends(it -> it.remove(1L), "DEL " + K);
        sends(it -> it.getAndRemove(1L), "GETDEL " + K);
        sends(it -> it.replace(1L, 5L, 6L), "JENTRY.APPLY -2 -1 -1 do ID " + K + " 5 6");
        sends(it -> it.remove(1L, 5L), "JENTRY.APPLY -2 -1 -1 do ID " + K + " 5");
        sends(it -> it.invoke(1L, new Renewing.Add(), 7L), "JENTRY.APPLY -2 -1 -1 do ID " + K + " 7");
    }

    @Test void methodsOnSeveralKeys() throws Exception {
        sends(it -> it.getAll(Set.of(1L)), "MGET " + K);
        sends(it -> it.putAll(Map.of(1L, 6L)), "MSET " + K + " 6");
        sends(it -> it.removeAll(Set.of(1L)), "UNLINK " + K);
        sends(it -> it.invokeAll(Set.of(1L), new Renewing.Add(), 7L), "JENTRY.APPLY -2 -1 -1 do ID " + K + " 7");
        sends(Cache::clear, SCAN, "UNLINK " + K);
        sends(Cache::removeAll, SCAN, "UNLINK " + K);
        sends(it -> {
            Iterator<Cache.Entry<Long, Long>> all = it.iterator();
            assertEquals(5L, all.next().getValue());
            all.remove();
        }, SCAN, "MGET " + K, "DEL " + K);
        sends(it -> manager.destroyCache("test"), SCAN, "UNLINK " + K);
        assertTrue(cache.isClosed());
    }

    /** Long calls are sent in pieces so that they don't delay other calls. */
    @Test void severalKeysGoInPiecesOf1024() throws Exception {
        Map<Long, Long> all = Numbers.upTo(2_500);
        List<Integer> counts = new ArrayList<>();
        monitor.commands();
        cache.putAll(all);
        monitor.commands().forEach(it -> counts.add(it.split(" ").length / 2));
        assertEquals(List.of(1_024, 1_024, 452), counts);
        counts.clear();
        assertEquals(all, cache.getAll(all.keySet()));
        cache.removeAll(all.keySet());
        monitor.commands().forEach(it -> counts.add(it.split(" ").length - 1));
        assertEquals(List.of(1_024, 1_024, 452, 1_024, 1_024, 452), counts);
    }

    @Test void entriesThatExpireAfterTheirCreation() throws Exception {
        create(CreatedExpiryPolicy.factoryOf(TIME));
        String[] two = {"MULTI", "SET " + K + " 6 XX GET KEEPTTL", "SET " + K + " 6 NX PX " + HOUR, "EXEC"};
        sends(it -> it.put(1L, 6L), two);
        sends(it -> it.getAndPut(1L, 6L), two);
        sends(it -> it.putIfAbsent(1L, 6L), "SET " + K + " 6 NX PX " + HOUR);
        sends(it -> it.replace(1L, 6L), "SET " + K + " 6 XX KEEPTTL");
        sends(it -> it.get(1L), "GET " + K);
        sends(it -> it.getAll(Set.of(1L)), "MGET " + K);
        sends(it -> it.putAll(Map.of(1L, 6L)), "MULTI", "SET " + K + " 6 XX KEEPTTL", "SET " + K + " 6 NX PX " + HOUR, "EXEC");
        sends(it -> it.invoke(1L, new Renewing.Add(), 7L), "JENTRY.APPLY " + HOUR + " -1 -1 do ID " + K + " 7");
        sends(it -> it.replace(1L, 5L, 6L), "JENTRY.APPLY " + HOUR + " -1 -1 do ID " + K + " 5 6");
    }

    @Test void entriesThatExpireAfterTheirUpdate() throws Exception {
        create(ModifiedExpiryPolicy.factoryOf(TIME));
        sends(it -> it.put(1L, 6L), "SET " + K + " 6 PX " + HOUR);
        sends(it -> it.getAndPut(1L, 6L), "SET " + K + " 6 GET PX " + HOUR);
        sends(it -> it.replace(1L, 6L), "SET " + K + " 6 XX PX " + HOUR);
        sends(it -> it.getAndReplace(1L, 6L), "SET " + K + " 6 XX GET PX " + HOUR);
        sends(it -> it.putAll(Map.of(1L, 6L)), "SET " + K + " 6 PX " + HOUR);
        sends(it -> it.invoke(1L, new Renewing.Add(), 7L), "JENTRY.APPLY " + HOUR + " " + HOUR + " -1 do ID " + K + " 7");
    }

    @Test void entriesThatExpireAfterTheirAccess() throws Exception {
        create(TouchedExpiryPolicy.factoryOf(TIME));
        sends(it -> it.get(1L), "GETEX " + K + " PX " + HOUR);
        sends(it -> it.getAll(Set.of(1L)), "GETEX " + K + " PX " + HOUR);
        sends(it -> assertEquals(5L, it.iterator().next().getValue()), SCAN, "GETEX " + K + " PX " + HOUR);
        sends(it -> it.invoke(1L, new Renewing.Read()), "JENTRY.APPLY " + HOUR + " " + HOUR + " -1 do ID " + K, "GETEX " + K + " PX " + HOUR);
        create(AccessedExpiryPolicy.factoryOf(Duration.ZERO));
        sends(it -> it.get(1L), "GETDEL " + K);
    }

    @Test void entriesThatExpireAtOnce() throws Exception {
        create(CreatedExpiryPolicy.factoryOf(Duration.ZERO));
        sends(false, it -> assertTrue(it.putIfAbsent(1L, 6L)), "EXISTS " + K);
        sends(it -> it.put(1L, 6L), "SET " + K + " 6 XX KEEPTTL");
        sends(false, it -> it.invoke(1L, new Renewing.Add(), 7L), "JENTRY.APPLY 0 -1 -1 do ID " + K + " 7");
        assertNull(cache.get(1L));
    }

    /** Sets one hour on creation and update, and no expiry on access. */
    private static final class Own implements ExpiryPolicy {
        @Override public Duration getExpiryForCreation() {
            return TIME;
        }

        @Override public Duration getExpiryForUpdate() {
            return TIME;
        }

        @Override public Duration getExpiryForAccess() {
            return Duration.ETERNAL;
        }
    }

    @Test void aPolicyOfOnesOwnCostsMore() throws Exception {
        create(Own::new);
        sends(it -> it.get(1L), "GET " + K, "GETEX " + K + " PERSIST");
        sends(it -> it.put(1L, 6L), "EXISTS " + K, "SET " + K + " 6 XX PX " + HOUR);
        sends(false, it -> it.put(1L, 6L), "EXISTS " + K, "SET " + K + " 6 NX PX " + HOUR);
        sends(it -> it.invoke(1L, new Renewing.Add(), 7L), "JENTRY.APPLY -2 -1 -1 dry ID " + K + " 7",
            "JENTRY.APPLY -2 " + HOUR + " -1 do ID " + K + " 5 12");
        sends(false, it -> it.invoke(1L, new Renewing.Add(), 7L), "JENTRY.APPLY -2 -1 -1 dry ID " + K + " 7",
            "SET " + K + " 7 NX PX " + HOUR);
    }

    @Test void listenersNeedTheValueBefore() throws Exception {
        create(types().addCacheEntryListenerConfiguration(new Heard(0).by(true, true)));
        sends(it -> it.put(1L, 6L), "SET " + K + " 6 GET KEEPTTL");
        sends(it -> it.replace(1L, 6L), "SET " + K + " 6 XX GET KEEPTTL");
        sends(it -> it.remove(1L), "GETDEL " + K);
        sends(it -> it.removeAll(Set.of(1L)), "GETDEL " + K);
        sends(Cache::removeAll, SCAN, "GETDEL " + K);
        sends(Cache::clear, SCAN, "UNLINK " + K);
        sends(it -> it.putAll(Map.of(1L, 6L)), "SET " + K + " 6 GET KEEPTTL");
    }

    @Test void statisticsCostNothing() throws Exception {
        create(types().setStatisticsEnabled(true));
        sends(it -> it.put(1L, 6L), "SET " + K + " 6 KEEPTTL");
        sends(it -> it.replace(1L, 7L, 6L), "JENTRY.APPLY -2 -1 -1 do ID " + K + " 7 6");
        sends(it -> it.invoke(1L, new Renewing.Add(), 7L), "JENTRY.APPLY -2 -1 -1 do ID " + K + " 7");
    }

    @Test void loadersWorkHere() throws Exception {
        create(types().setReadThrough(true).setCacheLoaderFactory(() -> Numbers.LOADER));
        sends(false, it -> it.get(1L), "GET " + K, "SET " + K + " 10 NX");
        sends(it -> it.get(1L), "GET " + K);
        sends(false, it -> loadAll(it, false), "MGET " + K, "SET " + K + " 10 NX");
        sends(it -> loadAll(it, true), "SET " + K + " 10 KEEPTTL");
    }

    private static void loadAll(Cache<Long, Long> cache, boolean replaces) throws Exception {
        CompletionListenerFuture done = new CompletionListenerFuture();
        cache.loadAll(Set.of(1L), replaces, done);
        done.get();
    }

    @Test void createCacheLooksForTheModule() throws Exception {
        cache.close();
        sends(it -> create(types()), "COMMAND INFO JENTRY.APPLY");
    }

    @Test void aClassIsSentOnce() throws Exception {
        String bytes = "JENTRY.DEFINE";
        monitor.commands();
        cache.invoke(1L, new Renewing.Sets(), 1L);
        List<String> first = monitor.commands();
        assertEquals(3, first.size(), first::toString);
        assertTrue(first.get(1).startsWith(bytes) && first.get(0).equals(first.get(2)), first::toString);
        sends(it -> it.invoke(1L, new Renewing.Sets(), 1L), "JENTRY.APPLY -2 -1 -1 do ID " + K + " 1");
    }
}
