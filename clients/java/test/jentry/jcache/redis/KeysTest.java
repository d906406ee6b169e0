package jentry.jcache.redis;

import static org.junit.jupiter.api.Assertions.assertEquals;
import static org.junit.jupiter.api.Assertions.assertFalse;
import static org.junit.jupiter.api.Assertions.assertNull;
import static org.junit.jupiter.api.Assertions.assertThrows;
import static org.junit.jupiter.api.Assertions.assertTrue;

import java.util.ArrayList;
import java.util.HashMap;
import java.util.Iterator;
import java.util.List;
import java.util.Map;
import java.util.NoSuchElementException;
import java.util.Set;
import javax.cache.Cache;
import javax.cache.CacheException;
import javax.cache.CacheManager;
import jentry.jcache.Heard;
import jentry.jcache.Renewing;
import org.junit.jupiter.api.Test;

/** Tests clear, removeAll, iterator and destroyCache, which scan the keys; on one server and on three masters. */
class KeysTest extends WithRedis {
    private static Map<Long, Long> numbers(int count) {
        Map<Long, Long> all = new HashMap<>();
        for (long i = 0; i < count; i++) {
            all.put(i * 7 - 3, i);
        }
        return all;
    }

    private static Map<Long, Long> entries(Cache<Long, Long> cache) {
        Map<Long, Long> all = new HashMap<>();
        cache.forEach(it -> assertNull(all.put(it.getKey(), it.getValue()), "a key twice"));
        return all;
    }

    private static void walk(CacheManager manager) {
        Cache<Long, Long> cache = manager.createCache("test", types()), other = manager.createCache("test:x", types());
        Map<Long, Long> all = numbers(5_000);
        cache.putAll(all);
        other.putAll(Map.of(1L, 11L, 2L, 12L));
        assertEquals(all, cache.getAll(all.keySet()));
        assertEquals(all, entries(cache));
        cache.removeAll(Set.of(-3L, 4L));
        all.keySet().removeAll(Set.of(-3L, 4L));
        assertEquals(all, entries(cache));
        Iterator<Cache.Entry<Long, Long>> some = cache.iterator();
        assertThrows(IllegalStateException.class, some::remove);
        long first = some.next().getKey();
        some.remove();
        assertThrows(IllegalStateException.class, some::remove);
        assertFalse(cache.containsKey(first));
        cache.removeAll();
        assertFalse(cache.iterator().hasNext());
        assertThrows(NoSuchElementException.class, () -> cache.iterator().next());
        cache.putAll(all);
        cache.clear();
        assertEquals(Map.of(), entries(cache));
        assertEquals(Map.of(1L, 11L, 2L, 12L), entries(other));
        manager.destroyCache("test:x");
        Cache<Long, Long> again = manager.createCache("test:x", types());
        assertEquals(Map.of(), entries(again));
    }

    @Test void onOneServer() {
        walk(manager(open(new RedisServer())));
    }

    @Test void onThreeMasters() throws InterruptedException {
        walk(open(RedisServer.manager(open(new RedisNodes(false)).uri("app"))));
    }

    @Test void aCacheInOneSlot() throws InterruptedException {
        Cache<Long, Long> cache = open(RedisServer.manager(open(new RedisNodes(false)).uri("app")))
            .createCache("{visits}", types());
        cache.putAll(numbers(3_000));
        assertEquals(numbers(3_000), entries(cache));
    }

    @Test void entriesStayWhereTheManagerIsClosedAndGoWithDestroyCache() {
        RedisServer server = open(new RedisServer());
        try (CacheManager first = server.manager("app")) {
            first.createCache("test", types()).put(1L, 5L);
        }
        CacheManager second = manager(server);
        Cache<Long, Long> again = second.createCache("test", types());
        assertEquals(5L, again.get(1L));
        second.destroyCache("test");
        assertTrue(again.isClosed());
        assertEquals(0L, server.ask("DBSIZE"));
    }

    @Test void withoutANameTheKeysBeginWithTheCache() {
        RedisServer server = open(new RedisServer());
        Cache<Long, Long> cache = open(RedisServer.manager(java.net.URI.create("jentry+redis://127.0.0.1:" + server.port)))
            .createCache("test", types());
        cache.put(-7L, 5L);
        assertEquals("5", server.text("GET", "test:-7"));
    }

    @Test void othersKeysStay() {
        RedisServer server = open(new RedisServer());
        Cache<Long, Long> cache = cache(server);
        for (String key : List.of("app:test:x", "app:test:01", "app:test:", "app:tes:1", "test:1", "app:test:1:2")) {
            server.ask("SET", key, "7");
        }
        server.ask("RPUSH", "app:test:9", "7");
        cache.put(5L, 1L);
        assertEquals(Map.of(5L, 1L), entries(cache));
        cache.clear();
        assertEquals(7L, server.ask("DBSIZE"));
    }

    @Test void globCharactersInNames() {
        RedisServer server = open(new RedisServer());
        CacheManager manager = manager(server);
        Cache<Long, Long> odd = manager.createCache("a*[b]?\\^-", types()), plain = manager.createCache("aXbYZ", types());
        odd.put(1L, 2L);
        plain.put(1L, 3L);
        assertEquals(Map.of(1L, 2L), entries(odd));
        odd.clear();
        assertEquals(Map.of(), entries(odd));
        assertEquals(3L, plain.get(1L));
    }

    @Test void removeAllTellsListenersAndClearDoesNot() {
        Cache<Long, Long> cache = cache(open(new RedisServer()));
        Heard heard = new Heard(0);
        cache.putAll(Map.of(1L, 1L, 2L, 2L));
        cache.registerCacheEntryListener(heard.by(true, true));
        cache.removeAll();
        assertEquals(Set.of("REMOVED 1 1 1", "REMOVED 2 2 2"), Set.copyOf(heard.all));
        heard.all.clear();
        cache.put(1L, 1L);
        cache.clear();
        assertEquals(List.of("CREATED 1 1 null"), heard.all);
    }

    @Test void valuesThatAreNoLongsAreRefusedAndStay() {
        RedisServer server = open(new RedisServer());
        Cache<Long, Long> cache = cache(server);
        server.ask("SET", "app:test:1", "text");
        server.ask("RPUSH", "app:test:2", "7");
        List<Runnable> calls = new ArrayList<>(List.of(() -> cache.get(1L), () -> cache.get(2L), () -> cache.getAll(Set.of(1L, 3L)),
            () -> cache.invoke(1L, new Renewing.Add(), 1L), () -> cache.invoke(2L, new Renewing.Add(), 1L),
            () -> cache.getAndPut(2L, 1L), () -> cache.replace(1L, 1L, 2L)));
        for (Runnable call : calls) {
            assertThrows(CacheException.class, call::run);
        }
        assertEquals("text", server.text("GET", "app:test:1"));
        assertEquals("list", ((Resp.Status) server.ask("TYPE", "app:test:2")).text());
        assertTrue(cache.containsKey(1L));
    }

    @Test void longsAreExact() {
        Cache<Long, Long> cache = cache(open(new RedisServer()));
        cache.putAll(Map.of(Long.MIN_VALUE, Long.MAX_VALUE, 0L, Long.MIN_VALUE, 1L, 9007199254740993L));
        assertEquals(Map.of(Long.MIN_VALUE, Long.MAX_VALUE, 0L, Long.MIN_VALUE, 1L, 9007199254740993L), entries(cache));
        assertEquals(9007199254740994L, cache.invoke(1L, new Renewing.Add(), 1L));
    }
}
