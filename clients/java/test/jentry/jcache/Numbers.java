package jentry.jcache;

import java.util.HashMap;
import java.util.Map;
import javax.cache.integration.CacheLoader;

/** Entries for tests. */
public final class Numbers {
    /** Loads ten times the key for every key. */
    public static final CacheLoader<Long, Long> LOADER = new CacheLoader<>() {
        @Override public Long load(Long key) {
            return 10 * key;
        }

        @Override public Map<Long, Long> loadAll(Iterable<? extends Long> keys) {
            Map<Long, Long> all = new HashMap<>();
            keys.forEach(key -> all.put(key, load(key)));
            return all;
        }
    };

    private Numbers() { }

    /** Returns entries for the keys from 0 to {@code count} - 1; the value of each is its key. */
    public static Map<Long, Long> upTo(long count) {
        Map<Long, Long> all = new HashMap<>();
        for (long i = 0; i < count; i++) {
            all.put(i, i);
        }
        return all;
    }
}
