package jentry.jcache.jsr107;

import java.io.Closeable;
import java.util.ArrayList;
import java.util.HashMap;
import java.util.List;
import java.util.Map;
import javax.cache.integration.CacheLoader;

/** A loader of a hundred times the low digits of a key. It has no value for keys whose last digit is 9, and fails for those whose last digit is 8. */
final class Loading implements CacheLoader<Long, Long>, Closeable {
    final List<Long> asked = new ArrayList<>();
    volatile boolean isClosed;

    /** Returns a key of the check whose last digits are these. */
    static long key(Subject on, int last) {
        return on.key(1_000 - Math.floorMod(on.key(0), 1_000) + last);
    }

    static Long value(long key) {
        return 100L * Math.floorMod(key, 1_000);
    }

    @Override public synchronized Long load(Long key) {
        asked.add(key);
        if (Math.floorMod(key, 10) == 8) {
            throw new IllegalStateException("unwilling");
        }
        return Math.floorMod(key, 10) == 9 ? null : value(key);
    }

    @Override public synchronized Map<Long, Long> loadAll(Iterable<? extends Long> keys) {
        Map<Long, Long> found = new HashMap<>();
        for (Long key : keys) {
            Long value = load(key);
            if (value != null) {
                found.put(key, value);
            }
        }
        return found;
    }

    /** Returns how many keys were asked for since the last call. */
    synchronized int count() {
        int count = asked.size();
        asked.clear();
        return count;
    }

    @Override public void close() {
        isClosed = true;
    }
}
