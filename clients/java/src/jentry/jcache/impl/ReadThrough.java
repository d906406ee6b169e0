package jentry.jcache.impl;

import java.util.HashMap;
import java.util.List;
import java.util.Map;
import java.util.function.Supplier;
import javax.cache.configuration.CompleteConfiguration;
import javax.cache.integration.CacheLoader;
import javax.cache.integration.CacheLoaderException;

/** The loader of a cache, if there is one. It runs in this JVM. */
final class ReadThrough {
    private final CacheLoader<Long, Long> loader;
    private final boolean isOnMiss;

    ReadThrough(CompleteConfiguration<Long, Long> configuration) {
        var factory = configuration.getCacheLoaderFactory();
        loader = factory == null ? null : factory.create();
        isOnMiss = configuration.isReadThrough() && loader != null;
    }

    /** Returns whether there is a loader. */
    boolean isThere() {
        return loader != null;
    }

    /** Returns whether lookups that miss call the loader. */
    boolean isOnMiss() {
        return isOnMiss;
    }

    /** Returns the loaded value of a key, or null. */
    Long load(long key) {
        return isOnMiss ? checked(() -> loader.load(key)) : null;
    }

    /** Returns the loaded values of keys, without the keys that have none. */
    Map<Long, Long> loadAll(List<Long> keys) {
        if (keys.isEmpty()) {
            return Map.of();
        }
        Map<Long, Long> found = new HashMap<>();
        checked(() -> loader.loadAll(keys)).forEach((key, value) -> {
            if (key != null && value != null) {
                found.put(key, value);
            }
        });
        return found;
    }

    private static <T> T checked(Supplier<T> work) {
        try {
            return work.get();
        } catch (CacheLoaderException e) {
            throw e;
        } catch (RuntimeException e) {
            throw new CacheLoaderException(e);
        }
    }

    CacheLoader<Long, Long> loader() {
        return loader;
    }
}
