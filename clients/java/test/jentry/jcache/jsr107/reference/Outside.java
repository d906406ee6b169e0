package jentry.jcache.jsr107.reference;

import java.util.ArrayList;
import java.util.Collection;
import java.util.HashMap;
import java.util.HashSet;
import java.util.List;
import java.util.Map;
import java.util.Set;
import java.util.function.Supplier;
import javax.cache.Cache;
import javax.cache.configuration.CompleteConfiguration;
import javax.cache.integration.CacheLoader;
import javax.cache.integration.CacheLoaderException;
import javax.cache.integration.CacheWriter;
import javax.cache.integration.CacheWriterException;

/** The loader and the writer of a cache. */
final class Outside<K, V> {
    final CacheLoader<K, V> loader;
    final boolean readsThrough;
    private final CacheWriter<? super K, ? super V> writer;

    Outside(CompleteConfiguration<K, V> by) {
        loader = by.getCacheLoaderFactory() == null ? null : by.getCacheLoaderFactory().create();
        readsThrough = by.isReadThrough();
        writer = by.isWriteThrough() ? by.getCacheWriterFactory().create() : null;
    }

    V load(K key) {
        return readsThrough ? loading(() -> loader.load(key)) : null;
    }

    Map<K, V> loadAll(Collection<K> keys) {
        Map<K, V> found = new HashMap<>(loading(() -> loader.loadAll(keys)));
        found.values().removeIf(it -> it == null);
        return found;
    }

    private static <T> T loading(Supplier<T> work) {
        try {
            return work.get();
        } catch (CacheLoaderException e) {
            throw e;
        } catch (RuntimeException e) {
            throw new CacheLoaderException(e);
        }
    }

    private static void writing(Runnable work) {
        try {
            work.run();
        } catch (CacheWriterException e) {
            throw e;
        } catch (RuntimeException e) {
            throw new CacheWriterException(e);
        }
    }

    void write(K key, V value) {
        if (writer != null) {
            writing(() -> writer.write(new Pair<>(key, value)));
        }
    }

    void delete(K key) {
        if (writer != null) {
            writing(() -> writer.delete(key));
        }
    }

    /** What a bulk call of the writer has done, and its exception or null. */
    record Written<K>(Set<K> keys, CacheWriterException failure) { }

    @SuppressWarnings("unchecked")
    Written<K> writeAll(Map<? extends K, ? extends V> map) {
        Set<K> done = new HashSet<>(map.keySet());
        if (writer == null) {
            return new Written<>(done, null);
        }
        List<Cache.Entry<? extends K, ? extends V>> left = new ArrayList<>();
        map.forEach((key, value) -> left.add(new Pair<>(key, value)));
        try {
            writing(() -> ((CacheWriter<K, V>) writer).writeAll(left));
            return new Written<>(done, null);
        } catch (CacheWriterException e) {
            left.forEach(it -> done.remove(it.getKey()));
            return new Written<>(done, e);
        }
    }

    Written<K> deleteAll(Collection<? extends K> keys) {
        Set<K> done = new HashSet<>(keys);
        Collection<Object> left = new ArrayList<>(keys);
        try {
            if (writer != null) {
                writing(() -> writer.deleteAll(left));
            }
            return new Written<>(done, null);
        } catch (CacheWriterException e) {
            left.forEach(done::remove);
            return new Written<>(done, e);
        }
    }

    void close() {
        ReferenceCache.closed(loader);
        ReferenceCache.closed(writer);
    }
}
