package jentry.jcache;

import static org.junit.jupiter.api.Assertions.assertEquals;
import static org.junit.jupiter.api.Assertions.assertFalse;
import static org.junit.jupiter.api.Assertions.assertNull;
import static org.junit.jupiter.api.Assertions.assertThrows;
import static org.junit.jupiter.api.Assertions.assertTrue;
import static org.junit.jupiter.api.Assumptions.assumeFalse;

import java.util.ArrayList;
import java.util.HashMap;
import java.util.List;
import java.util.Map;
import java.util.concurrent.CompletableFuture;
import java.util.concurrent.CompletionException;
import javax.cache.Cache;
import javax.cache.integration.CacheLoaderException;
import javax.cache.management.CacheStatisticsMXBean;
import org.junit.jupiter.api.Test;

/** Tests getAsync, putAsync and size, on the real server. */
class AsyncTest extends OnServer {
    @Test void getAndPut() {
        JentryCache own = server.own();
        assertNull(own.getAsync(k).join());
        assertNull(own.putAsync(k, 5L).join());
        assertEquals(5L, own.getAsync(k).join());
        assertEquals(5L, cache.get(k));
        assertThrows(NullPointerException.class, () -> own.getAsync(null));
        assertThrows(NullPointerException.class, () -> own.putAsync(k, null));
    }

    @Test void manyAtOnce() {
        JentryCache own = server.own();
        List<CompletableFuture<Void>> puts = new ArrayList<>();
        for (long i = 0; i < 2_000; i++) {
            puts.add(own.putAsync(k + i, i));
        }
        puts.forEach(CompletableFuture::join);
        Map<Long, CompletableFuture<Long>> gets = new HashMap<>();
        for (long i = 0; i < 2_000; i++) {
            gets.put(i, own.getAsync(k + i));
        }
        gets.forEach((i, value) -> assertEquals(i, value.join()));
    }

    @Test void whatThisJvmTakesPartIn() {
        Map<Long, Long> source = Map.of(k, 100L);
        Heard heard = new Heard(k);
        JentryCache own = create(Server.types().setReadThrough(true).setCacheLoaderFactory(() -> new javax.cache.integration.CacheLoader<Long, Long>() {
            @Override public Long load(Long key) {
                if (!source.containsKey(key)) {
                    throw new IllegalStateException("unwilling");
                }
                return source.get(key);
            }

            @Override public Map<Long, Long> loadAll(Iterable<? extends Long> keys) {
                throw new UnsupportedOperationException();
            }
        }).addCacheEntryListenerConfiguration(heard.by(true, true)).setStatisticsEnabled(true)).unwrap(JentryCache.class);
        assertEquals(100L, own.getAsync(k).join());
        Throwable thrown = assertThrows(CompletionException.class, () -> own.getAsync(k + 1).join()).getCause();
        assertEquals(CacheLoaderException.class, thrown.getClass());
        own.putAsync(k, 7L).join();
        assertEquals(List.of("CREATED 0 100 null", "UPDATED 0 7 100"), heard.all);
    }

    @Test void theyAreCounted() {
        JentryCache own = create(Server.types().setStatisticsEnabled(true)).unwrap(JentryCache.class);
        own.getAsync(k).join();
        own.putAsync(k, 1L).join();
        own.getAsync(k).join();
        CacheStatisticsMXBean told = own.context().statistics();
        assertEquals(List.of(1L, 1L, 1L), List.of(told.getCacheHits(), told.getCacheMisses(), told.getCachePuts()));
        assertTrue(told.getAverageGetTime() > 0 && told.getAveragePutTime() > 0);
    }

    @Test void size() {
        if (Server.isFront()) {
            assertThrows(UnsupportedOperationException.class, () -> server.own().size());
            return;
        }
        Cache<Long, Long> fresh = create(Server.types());
        JentryCache own = fresh.unwrap(JentryCache.class);
        fresh.clear();
        assertEquals(0, own.size());
        for (long i = 0; i < 1_500; i++) {
            own.putAsync(k + i, i);
        }
        fresh.invoke(k + 2_000, new Sample.Add(), 1L);
        own.putAsync(k, 1L).join();
        assertEquals(1_501, own.size());
        fresh.invoke(k, new Sample.Removes());
        fresh.remove(k + 1);
        assertEquals(1_499, own.size());
        fresh.clear();
        assertEquals(0, own.size());
    }

    @Test void aClosedCache() {
        assumeFalse(cache.isClosed());
        JentryCache own = server.own();
        cache.close();
        assertThrows(IllegalStateException.class, () -> own.getAsync(k));
        assertThrows(IllegalStateException.class, () -> own.putAsync(k, 1L));
        assertThrows(IllegalStateException.class, own::size);
        assertFalse(own.getCacheManager().isClosed());
    }
}
