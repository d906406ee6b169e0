package jentry.jcache.jsr107;

import java.io.Closeable;
import java.util.ArrayList;
import java.util.Collection;
import java.util.HashMap;
import java.util.List;
import java.util.Map;
import javax.cache.Cache;
import javax.cache.integration.CacheWriter;
import javax.cache.integration.CacheWriterException;

/** A writer to a map. It refuses the value -1, and to delete an entry whose value it has as -2. */
final class Writing implements CacheWriter<Long, Long>, Closeable {
    static final long REFUSED = -1, UNDELETABLE = -2;
    final Map<Long, Long> written = new HashMap<>();
    final List<String> calls = new ArrayList<>();
    volatile boolean isClosed;

    @Override public synchronized void write(Cache.Entry<? extends Long, ? extends Long> entry) {
        calls.add("write " + entry.getValue());
        if (entry.getValue() == REFUSED) {
            throw new IllegalStateException("unwilling");
        }
        written.put(entry.getKey(), entry.getValue());
    }

    @Override public synchronized void writeAll(Collection<Cache.Entry<? extends Long, ? extends Long>> entries) {
        calls.add("writeAll " + entries.size());
        for (var it : List.copyOf(entries)) {
            if (it.getValue() != REFUSED) {
                written.put(it.getKey(), it.getValue());
                entries.remove(it);
            }
        }
        if (!entries.isEmpty()) {
            throw new CacheWriterException("unwilling");
        }
    }

    @Override public synchronized void delete(Object key) {
        calls.add("delete");
        if (written.getOrDefault(key, 0L) == UNDELETABLE) {
            throw new IllegalStateException("unwilling");
        }
        written.remove(key);
    }

    @Override public synchronized void deleteAll(Collection<?> keys) {
        calls.add("deleteAll " + keys.size());
        for (Object it : List.copyOf(keys)) {
            if (written.getOrDefault(it, 0L) != UNDELETABLE) {
                written.remove(it);
                keys.remove(it);
            }
        }
        if (!keys.isEmpty()) {
            throw new CacheWriterException("unwilling");
        }
    }

    /** Returns the calls since the last time. */
    synchronized List<String> called() {
        List<String> all = List.copyOf(calls);
        calls.clear();
        return all;
    }

    @Override public void close() {
        isClosed = true;
    }
}
