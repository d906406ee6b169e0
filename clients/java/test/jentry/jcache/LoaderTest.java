package jentry.jcache;

import static org.junit.jupiter.api.Assertions.assertEquals;
import static org.junit.jupiter.api.Assertions.assertFalse;
import static org.junit.jupiter.api.Assertions.assertNull;
import static org.junit.jupiter.api.Assertions.assertThrows;
import static org.junit.jupiter.api.Assertions.assertTrue;

import java.util.HashMap;
import java.util.Map;
import java.util.Set;
import java.util.concurrent.ConcurrentHashMap;
import java.util.concurrent.ExecutionException;
import java.util.concurrent.atomic.AtomicInteger;
import javax.cache.Cache;
import javax.cache.integration.CacheLoader;
import javax.cache.integration.CacheLoaderException;
import javax.cache.integration.CompletionListenerFuture;
import javax.cache.processor.EntryProcessorException;
import org.junit.jupiter.api.Test;

/** Tests loaders: read-through and loadAll. */
class LoaderTest extends OnServer {
    private final Map<Long, Long> source = new ConcurrentHashMap<>();
    private final AtomicInteger loads = new AtomicInteger();

    private final CacheLoader<Long, Long> loader = new CacheLoader<>() {
        @Override public Long load(Long key) {
            loads.incrementAndGet();
            if (source.getOrDefault(key, 0L) == 13) {
                throw new IllegalStateException("unlucky");
            }
            return source.get(key);
        }

        @Override public Map<Long, Long> loadAll(Iterable<? extends Long> keys) {
            Map<Long, Long> all = new HashMap<>();
            keys.forEach(key -> all.put(key, load(key)));
            return all;
        }
    };

    private Cache<Long, Long> create(boolean readsThrough, String... properties) {
        return create(Server.types().setReadThrough(readsThrough).setCacheLoaderFactory(() -> loader), properties);
    }

    @Test void getLoadsOnceWhatIsNotThere() {
        Cache<Long, Long> through = create(true);
        source.put(k, 100L);
        assertEquals(100L, through.get(k));
        assertEquals(100L, through.get(k));
        assertEquals(1, loads.get());
        assertNull(through.get(k + 1));
        assertNull(through.get(k + 1));
        assertEquals(3, loads.get());
        assertFalse(through.containsKey(k + 1));
        through.put(k + 2, 5L);
        assertEquals(5L, through.get(k + 2));
        assertEquals(3, loads.get());
    }

    @Test void getAllLoadsWhatIsNotThere() {
        Cache<Long, Long> through = create(true);
        source.putAll(Map.of(k, 100L, k + 1, 101L));
        through.put(k + 2, 5L);
        assertEquals(Map.of(k, 100L, k + 1, 101L, k + 2, 5L), through.getAll(Set.of(k, k + 1, k + 2, k + 3)));
        assertEquals(3, loads.get());
        assertTrue(through.containsKey(k) && through.containsKey(k + 1));
    }

    @Test void onlyGetAndGetAllAndProcessorsLoad() {
        Cache<Long, Long> through = create(true);
        source.put(k, 100L);
        assertFalse(through.containsKey(k));
        assertNull(through.getAndPut(k, 1L));
        assertEquals(1L, through.getAndRemove(k));
        assertNull(through.getAndReplace(k, 1L));
        assertFalse(through.replace(k, 1L));
        assertFalse(through.remove(k, 100L));
        assertFalse(through.replace(k, 100L, 1L));
        assertTrue(through.putIfAbsent(k, 2L));
        assertEquals(0, loads.get());
    }

    @Test void aProcessorSeesTheLoadedValue() {
        Cache<Long, Long> through = create(true);
        source.put(k, 100L);
        assertEquals(100L, through.invoke(k, new Sample.Value()));
        assertEquals(101L, through.invoke(k, new Sample.Add(), 1L));
        assertEquals(1, loads.get());
        assertEquals(101L, through.get(k));
    }

    @Test void inThisJvmExistsLoadsNothingAndGetValueDoes() {
        Cache<Long, Long> through = create(true, "jentry.local", "true");
        source.put(k, 100L);
        assertEquals(false, through.<Boolean>invoke(k, (entry, arguments) -> entry.exists()));
        assertEquals(0, loads.get());
        assertFalse(through.containsKey(k));
        assertEquals(1L, through.invoke(k, new Sample.Add(), 1L), "Add asks exists() first");
        through.remove(k);
        assertEquals(100L, through.<Long>invoke(k, (entry, arguments) -> entry.getValue()));
        assertEquals(1, loads.get());
        assertTrue(through.containsKey(k));
    }

    @Test void whatALoaderThrows() {
        Cache<Long, Long> through = create(true);
        source.put(k, 13L);
        Throwable cause = assertThrows(CacheLoaderException.class, () -> through.get(k)).getCause();
        assertEquals("unlucky", cause.getMessage());
        assertThrows(CacheLoaderException.class, () -> through.getAll(Set.of(k)));
        assertEquals(k, through.invoke(k, new Sample.Key()), "it doesn't ask for the value");
        Throwable thrown = assertThrows(EntryProcessorException.class, () -> through.invoke(k, new Sample.Value())).getCause();
        assertEquals(CacheLoaderException.class, thrown.getClass());
        assertFalse(through.containsKey(k));
    }

    @Test void loadAllWithAndWithoutReplacing() throws Exception {
        Cache<Long, Long> filled = create(false);
        source.putAll(Map.of(k, 100L, k + 1, 101L));
        filled.put(k, 5L);
        CompletionListenerFuture first = new CompletionListenerFuture();
        filled.loadAll(Set.of(k, k + 1, k + 2), false, first);
        first.get();
        assertEquals(Map.of(k, 5L, k + 1, 101L), filled.getAll(Set.of(k, k + 1, k + 2)));
        CompletionListenerFuture second = new CompletionListenerFuture();
        filled.loadAll(Set.of(k, k + 1), true, second);
        second.get();
        assertEquals(100L, filled.get(k));
        assertNull(filled.get(k + 2), "without read-through nothing is loaded by get");
    }

    @Test void loadAllThatFails() {
        Cache<Long, Long> filled = create(false);
        source.put(k, 13L);
        CompletionListenerFuture listener = new CompletionListenerFuture();
        filled.loadAll(Set.of(k), true, listener);
        assertEquals(CacheLoaderException.class, assertThrows(ExecutionException.class, listener::get).getCause().getClass());
    }
}
