package jentry.jcache;

import static org.junit.jupiter.api.Assertions.assertDoesNotThrow;
import static org.junit.jupiter.api.Assertions.assertEquals;
import static org.junit.jupiter.api.Assertions.assertFalse;
import static org.junit.jupiter.api.Assertions.assertNotSame;
import static org.junit.jupiter.api.Assertions.assertSame;
import static org.junit.jupiter.api.Assertions.assertThrows;
import static org.junit.jupiter.api.Assertions.assertTrue;
import static org.junit.jupiter.api.Assumptions.assumeFalse;
import static org.junit.jupiter.api.Assumptions.assumeTrue;

import java.util.Collections;
import java.util.HashMap;
import java.util.HashSet;
import java.util.Map;
import java.util.Set;
import java.util.concurrent.atomic.AtomicInteger;
import javax.cache.Cache;
import javax.cache.configuration.CompleteConfiguration;
import javax.cache.configuration.MutableConfiguration;
import javax.cache.integration.CompletionListener;
import org.junit.jupiter.api.Test;
import org.junit.jupiter.api.function.Executable;

/** Tests what holds for all methods of Cache, and the methods without a test class of their own, on the real server. */
class CacheTest extends OnServer {
    @Test void getAllPutAllRemoveAll() {
        Map<Long, Long> entries = new HashMap<>();
        server.keys(0, 10_000).forEach(key -> entries.put(key, 2 * key));
        cache.putAll(entries);
        assertEquals(entries, cache.getAll(server.keys(0, 10_010)));
        cache.removeAll(server.keys(5_000, 10_020));
        entries.keySet().removeAll(server.keys(5_000, 10_000));
        assertEquals(entries, cache.getAll(server.keys(0, 10_000)));
    }

    @Test void bulkCallsOfNothing() {
        cache.putAll(Map.of());
        assertEquals(Map.of(), cache.getAll(Set.of()));
        cache.removeAll(Set.of());
        assertEquals(Map.of(), cache.invokeAll(Set.of(), new Sample.Add(), 1L));
    }

    @Test void bulkCallsOf1024And1025() {
        assumeFalse(Server.isRedis());
        for (int count : new int[] {1, 1_023, 1_024, 1_025, 2_048}) {
            Map<Long, Long> entries = new HashMap<>();
            server.keys(0, count).forEach(key -> entries.put(key, (long) count));
            long before = rounds();
            cache.putAll(entries);
            assertEquals(entries, cache.getAll(server.keys(0, count)));
            long each = (count + 1_023) / 1_024;
            assertEquals(2 * each, rounds() - before);
            assertEquals(count, cache.invokeAll(server.keys(0, count), new Sample.Key()).size());
            cache.removeAll(server.keys(0, count));
            assertEquals(4 * each + (count == 1 ? 1 : 0), rounds() - before, "the first use of the class is a round of its own");
        }
    }

    @Test void eachSingleCallIsOneRoundOnceItsClassIsThere() {
        assumeFalse(Server.isRedis());
        Executable[] calls = {() -> cache.put(k, 1L), () -> cache.get(k), () -> cache.containsKey(k), () -> cache.getAndPut(k, 2L), () -> cache.putIfAbsent(k, 2L),
            () -> cache.replace(k, 2L, 3L), () -> cache.replace(k, 4L), () -> cache.getAndReplace(k, 5L), () -> cache.remove(k, 6L), () -> cache.getAndRemove(k),
            () -> cache.remove(k), () -> cache.invoke(k, new Sample.Key())};
        for (boolean first : new boolean[] {true, false}) {
            long before = rounds();
            for (Executable call : calls) {
                assertDoesNotThrow(call);
            }
            assertEquals(calls.length + (first ? 8 : 0), rounds() - before, "eight of them use a class");
        }
    }

    @Test void loadAllTellsItsCompletion() {
        AtomicInteger told = new AtomicInteger();
        CompletionListener listener = new CompletionListener() {
            @Override public void onCompletion() {
                told.incrementAndGet();
            }

            @Override public void onException(Exception e) {
                told.set(-1);
            }
        };
        cache.loadAll(Set.of(k), true, listener);
        assertEquals(1, told.get());
        cache.loadAll(Set.of(k), false, null);
        assertFalse(cache.containsKey(k));
        assertThrows(NullPointerException.class, () -> cache.loadAll(null, false, null));
        assertThrows(NullPointerException.class, () -> cache.loadAll(Collections.singleton(null), false, null));
    }

    @Test void nullsAreRefusedBeforeAnythingIsSent() {
        Set<Long> withNull = new HashSet<>(Set.of(k));
        withNull.add(null);
        Map<Long, Long> nullValue = new HashMap<>(Map.of(k, 1L));
        nullValue.put(k + 1, null);
        Map<Long, Long> nullKey = new HashMap<>(Map.of(k, 1L));
        nullKey.put(null, 1L);
        long rounds = rounds();
        Executable[] calls = {() -> cache.get(null), () -> cache.containsKey(null), () -> cache.put(null, 1L), () -> cache.put(k, null), () -> cache.remove(null),
            () -> cache.getAndPut(null, 1L), () -> cache.getAndPut(k, null), () -> cache.putIfAbsent(null, 1L), () -> cache.putIfAbsent(k, null), () -> cache.remove(null, 1L),
            () -> cache.remove(k, null), () -> cache.getAndRemove(null), () -> cache.replace(null, 1L), () -> cache.replace(k, null), () -> cache.replace(null, 1L, 1L),
            () -> cache.replace(k, null, 1L), () -> cache.replace(k, 1L, null), () -> cache.getAndReplace(null, 1L), () -> cache.getAndReplace(k, null), () -> cache.getAll(null),
            () -> cache.getAll(withNull), () -> cache.putAll(null), () -> cache.putAll(nullValue), () -> cache.putAll(nullKey), () -> cache.removeAll(null),
            () -> cache.removeAll(withNull), () -> cache.invoke(k, null), () -> cache.invoke(null, new Sample.Add(), 1L), () -> cache.invokeAll(null, new Sample.Add()),
            () -> cache.invokeAll(withNull, new Sample.Add()), () -> cache.invokeAll(Set.of(k), null), () -> server.own().invokeAsync(null, new Sample.Add(), 1L),
            () -> server.own().invokeAsync(k, null)};
        for (Executable call : calls) {
            assertThrows(NullPointerException.class, call);
        }
        assertEquals(rounds, rounds());
        assertFalse(cache.containsKey(k));
    }

    @Test void whatTheServerLacksIsRefusedByName() {
        cache.put(k, 1L);
        assumeTrue(Server.isFront());
        Map<String, Executable> calls = Map.of("clear", cache::clear, "removeAll", cache::removeAll,
            "iterator", cache::iterator);
        calls.forEach((name, call) -> {
            String message = assertThrows(UnsupportedOperationException.class, call).getMessage();
            assertTrue(message.startsWith(name), message);
            assertTrue(message.contains("jentry+redis://HOST:PORT"), message);
        });
        assertEquals(1L, cache.get(k));
    }

    @Test void everyCallOnAClosedCacheFails() {
        cache.close();
        cache.close();
        assertTrue(cache.isClosed());
        assertEquals("test", cache.getName());
        Executable[] calls = {() -> cache.get(k), () -> cache.containsKey(k), () -> cache.put(k, 1L), () -> cache.remove(k), () -> cache.getAndPut(k, 1L),
            () -> cache.putIfAbsent(k, 1L), () -> cache.remove(k, 1L), () -> cache.getAndRemove(k), () -> cache.replace(k, 1L), () -> cache.replace(k, 1L, 2L),
            () -> cache.getAndReplace(k, 1L), () -> cache.getAll(Set.of(k)), () -> cache.putAll(Map.of(k, 1L)), () -> cache.removeAll(Set.of(k)), cache::removeAll, cache::clear,
            cache::iterator, () -> cache.invoke(k, new Sample.Add(), 1L), () -> cache.invokeAll(Set.of(k), new Sample.Add(), 1L), () -> cache.loadAll(Set.of(k), true, null),
            () -> cache.registerCacheEntryListener(null), () -> cache.deregisterCacheEntryListener(null), () -> cache.getConfiguration(MutableConfiguration.class),
            () -> server.own().invokeAsync(k, new Sample.Add(), 1L)};
        for (Executable call : calls) {
            assertThrows(IllegalStateException.class, call);
        }
    }

    @Test void aCallThatRacesWithCloseFindsTheCacheClosed() throws InterruptedException {
        for (int i = 0; i < 5; i++) {
            Cache<Long, Long> closing = create(Server.types());
            AtomicInteger calls = new AtomicInteger();
            Team team = Team.of(8, t -> assertThrows(IllegalStateException.class, () -> {
                while (true) {
                    closing.put(k, 1L);
                    calls.incrementAndGet();
                }
            }));
            while (calls.get() < 20) {
                Thread.onSpinWait();
            }
            closing.getCacheManager().close();
            team.join();
        }
    }

    @Test void localMethods() {
        assertEquals("test", cache.getName());
        assertSame(server.manager, cache.getCacheManager());
        assertFalse(cache.isClosed());
        assertSame(cache, cache.unwrap(JentryCache.class));
        assertThrows(IllegalArgumentException.class, () -> cache.unwrap(String.class));
        CompleteConfiguration<?, ?> configuration = cache.getConfiguration(CompleteConfiguration.class);
        assertEquals(Long.class, configuration.getKeyType());
        assertEquals(Long.class, configuration.getValueType());
        assertTrue(configuration.isStoreByValue());
        assertNotSame(cache.getConfiguration(MutableConfiguration.class), cache.getConfiguration(MutableConfiguration.class));
    }
}
