package jentry.jcache;

import static org.junit.jupiter.api.Assertions.assertEquals;
import static org.junit.jupiter.api.Assertions.assertFalse;
import static org.junit.jupiter.api.Assertions.assertNull;
import static org.junit.jupiter.api.Assertions.assertThrows;
import static org.junit.jupiter.api.Assertions.assertTrue;
import static org.junit.jupiter.api.Assumptions.assumeFalse;

import java.util.Collection;
import java.util.HashMap;
import java.util.Iterator;
import java.util.List;
import java.util.Map;
import java.util.Objects;
import java.util.Set;
import java.util.concurrent.ConcurrentHashMap;
import java.util.function.Supplier;
import javax.cache.Cache;
import javax.cache.CacheException;
import javax.cache.configuration.MutableConfiguration;
import javax.cache.integration.CacheLoader;
import javax.cache.integration.CacheLoaderException;
import javax.cache.integration.CacheWriter;
import javax.cache.integration.CacheWriterException;
import javax.cache.integration.CompletionListenerFuture;
import javax.cache.processor.EntryProcessor;
import javax.cache.processor.EntryProcessorException;
import org.junit.jupiter.api.Test;

/** A tour of the provider in which one program uses its parts together; the other tests cover each part. */
class TourTest extends OnServer {
    private static final long UNLUCKY = 13;

    private void answer(Object wanted, Supplier<Object> call) {
        assertEquals(wanted, call.get());
    }

    @Test void methodsOnOneKey() {
        answer(null, () -> cache.get(k));
        cache.put(k, 10L);
        answer(10L, () -> cache.get(k));
        answer(true, () -> cache.containsKey(k));
        answer(10L, () -> cache.getAndPut(k, 11L));
        answer(null, () -> cache.getAndPut(k + 1, 5L));
        answer(false, () -> cache.putIfAbsent(k + 1, 6L));
        answer(true, () -> cache.putIfAbsent(k + 2, 6L));
        answer(false, () -> cache.replace(k + 9, 1L));
        answer(true, () -> cache.replace(k + 2, 7L));
        answer(false, () -> cache.replace(k + 2, 6L, 8L));
        answer(true, () -> cache.replace(k + 2, 7L, 8L));
        answer(8L, () -> cache.getAndReplace(k + 2, 9L));
        answer(null, () -> cache.getAndReplace(k + 9, 9L));
        answer(false, () -> cache.remove(k + 2, 8L));
        answer(true, () -> cache.remove(k + 2, 9L));
        answer(5L, () -> cache.getAndRemove(k + 1));
        answer(false, () -> cache.remove(k + 1));
        answer(true, () -> cache.remove(k));
        cache.put(k, 9_007_199_254_740_993L);
        answer(9_007_199_254_740_994L, () -> cache.invoke(k, new Sample.Add(), 1L));
        answer(Map.of(k, 9_007_199_254_740_994L), () -> cache.getAll(Set.of(k, k + 4)));
    }

    @Test void manyKeys() {
        Map<Long, Long> many = new HashMap<>();
        Numbers.upTo(5_000).forEach((key, value) -> many.put(k + key, value));
        cache.putAll(many);
        answer(many, () -> cache.getAll(many.keySet()));
        cache.removeAll(Set.of(k, k + 1));
        answer(false, () -> cache.containsKey(k + 1));
        many.keySet().removeAll(Set.of(k, k + 1));
        assumeFalse(Server.isFront(), "a front has one cache and doesn't list its keys");
        Cache<Long, Long> own = server.manager.createCache("tour", Server.types()), other = server.manager.createCache("tour:x", Server.types());
        own.clear();
        own.putAll(many);
        other.put(5L, 55L);
        long sum = 0;
        for (Cache.Entry<Long, Long> it : own) {
            sum += it.getValue();
        }
        assertEquals(4_999L * 2_500 - 1, sum);
        Iterator<Cache.Entry<Long, Long>> all = own.iterator();
        long first = all.next().getKey();
        all.remove();
        answer(false, () -> own.containsKey(first));
        own.clear();
        answer(false, () -> own.iterator().hasNext());
        answer(55L, () -> other.get(5L));
        server.manager.destroyCache("tour:x");
    }

    @Test void processorsThatAreRefusedOrThrow() {
        EntryProcessor<Long, Long, Long> lambda = (entry, arguments) -> {
            entry.setValue(k);
            return k;
        };
        Throwable cause = assertThrows(EntryProcessorException.class, () -> cache.invoke(k, new Sample.Add(), (Object) null)).getCause();
        assertEquals(NullPointerException.class, cause.getClass());
        assertThrows(ProcessorRefusedException.class, () -> cache.invoke(k, new Sample.Loops()));
        assertThrows(CacheException.class, () -> cache.invoke(k, lambda));
        assertThrows(IllegalArgumentException.class, () -> cache.invoke(k, new Sample.Add(), "x"));
        answer(false, () -> cache.containsKey(k));
        answer(3L, () -> cache.invokeAll(Set.of(k + 7), new Sample.Add(), 3L).get(k + 7).get());
        Cache<Long, Long> local = create(Server.types(), "jentry.local", "true");
        answer(28L, () -> local.invoke(k, new Sample.Loops()));
        answer(k, () -> local.invoke(k, lambda));
        answer(k, () -> local.get(k));
        assertThrows(EntryProcessorException.class, () -> local.<Object>invoke(k + 1, (entry, arguments) -> {
            entry.setValue(1L);
            throw new IllegalStateException();
        }));
        answer(false, () -> local.containsKey(k + 1));
        answer(false, () -> local.<Boolean>invoke(k, (entry, arguments) -> {
            entry.remove();
            return entry.exists();
        }));
        answer(false, () -> local.containsKey(k));
    }

    /** A table that the loader reads and the writer writes; it fails for one key. */
    private static final class Table implements CacheLoader<Long, Long>, CacheWriter<Long, Long> {
        final Map<Long, Long> rows = new ConcurrentHashMap<>();
        final long unlucky;

        Table(long unlucky) {
            this.unlucky = unlucky;
        }

        private long lucky(Object key) {
            if (Objects.equals(key, unlucky)) {
                throw new IllegalStateException("unlucky");
            }
            return (Long) key;
        }

        @Override public Long load(Long key) {
            return rows.get(lucky(key));
        }

        @Override public Map<Long, Long> loadAll(Iterable<? extends Long> keys) {
            Map<Long, Long> all = new HashMap<>();
            keys.forEach(key -> rows.computeIfPresent(lucky(key), (same, value) -> {
                all.put(same, value);
                return value;
            }));
            return all;
        }

        @Override public void write(Cache.Entry<? extends Long, ? extends Long> entry) {
            rows.put(lucky(entry.getKey()), entry.getValue());
        }

        @Override public void writeAll(Collection<Cache.Entry<? extends Long, ? extends Long>> entries) {
            List.copyOf(entries).forEach(this::write);
            entries.clear();
        }

        @Override public void delete(Object key) {
            rows.remove(lucky(key));
        }

        @Override public void deleteAll(Collection<?> keys) {
            List.copyOf(keys).forEach(this::delete);
            keys.clear();
        }
    }

    @Test void aTableBehindTheCache() throws Exception {
        Table table = new Table(k + UNLUCKY);
        table.rows.putAll(Map.of(k, 100L, k + 1, 200L));
        MutableConfiguration<Long, Long> through = Server.types().setReadThrough(true).setCacheLoaderFactory(() -> table)
            .setWriteThrough(true).setCacheWriterFactory(() -> table);
        Cache<Long, Long> both = create(through, "jentry.local", "true");
        answer(100L, () -> both.get(k));
        answer(true, () -> both.containsKey(k));
        assertThrows(CacheLoaderException.class, () -> both.get(k + UNLUCKY));
        both.put(k + 4, 500L);
        answer(500L, () -> table.rows.get(k + 4));
        assertThrows(CacheWriterException.class, () -> both.put(k + UNLUCKY, 1L));
        answer(false, () -> both.containsKey(k + UNLUCKY));
        answer(201L, () -> both.invoke(k + 1, new Sample.Add(), 201L));
        answer(201L, () -> table.rows.get(k + 1));
        both.remove(k + 1);
        answer(null, () -> table.rows.get(k + 1));
        CompletionListenerFuture loaded = new CompletionListenerFuture();
        table.rows.put(k + 8, 8L);
        both.loadAll(Set.of(k + 8, k + 9), true, loaded);
        loaded.get();
        answer(true, () -> both.containsKey(k + 8));
        answer(false, () -> both.containsKey(k + 9));
    }

    @Test void whatAListenerHears() {
        Heard heard = new Heard(k);
        Cache<Long, Long> told = create(Server.types().addCacheEntryListenerConfiguration(heard.by(true, true)));
        List<String> wanted = List.of("CREATED 0 1 null", "UPDATED 0 2 1", "UPDATED 0 7 2", "REMOVED 0 7 7", "CREATED 1 9 null", "UPDATED 1 10 9");
        told.put(k, 1L);
        told.put(k, 2L);
        told.invoke(k, new Sample.Add(), 5L);
        told.remove(k);
        told.putIfAbsent(k + 1, 9L);
        told.replace(k + 1, 8L, 7L);
        told.getAndReplace(k + 1, 10L);
        assertEquals(wanted, heard.all);
        told.getCacheManager().close();
        assertTrue(told.isClosed());
        assertThrows(IllegalStateException.class, () -> told.get(k));
        assertNull(cache.get(k));
        assertFalse(cache.isClosed());
    }
}
