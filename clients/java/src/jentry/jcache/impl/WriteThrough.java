package jentry.jcache.impl;

import java.util.ArrayList;
import java.util.Collection;
import java.util.HashSet;
import java.util.List;
import java.util.Map;
import java.util.Set;
import javax.cache.Cache;
import javax.cache.configuration.CompleteConfiguration;
import javax.cache.integration.CacheWriter;
import javax.cache.integration.CacheWriterException;

/**
 * The writer of a cache, if the cache is write-through. It runs in this JVM before each change, so it can prevent the
 * change by an exception.
 */
final class WriteThrough {
    private final CacheWriter<? super Long, ? super Long> writer;

    WriteThrough(CompleteConfiguration<Long, Long> configuration) {
        var factory = configuration.isWriteThrough() ? configuration.getCacheWriterFactory() : null;
        writer = factory == null ? null : factory.create();
    }

    boolean isThere() {
        return writer != null;
    }

    void write(long key, long value) {
        if (writer != null) {
            checked(() -> writer.write(new PlainEntry(key, value)));
        }
    }

    void delete(long key) {
        if (writer != null) {
            checked(() -> writer.delete(key));
        }
    }

    /** The outcome of a bulk method of the writer: the keys it wrote, and its exception or null. */
    record Written(Set<Long> keys, CacheWriterException failure) { }

    /**
     * Writes entries. A writer that throws must first remove the entries it has written from its collection, as JCache
     * requires.
     */
    Written writeAll(Map<Long, Long> entries) {
        List<Cache.Entry<? extends Long, ? extends Long>> left = new ArrayList<>();
        entries.forEach((key, value) -> left.add(new PlainEntry(key, value)));
        CacheWriterException failure = failure(() -> writeAllUnchecked(left));
        Set<Long> done = new HashSet<>(entries.keySet());
        if (failure != null) {
            left.forEach(it -> done.remove(it.getKey()));
        }
        return new Written(done, failure);
    }

    /**
     * Casts a writer of a supertype of Long. The API's signature needs this cast before the writer accepts entries of
     * Long.
     */
    @SuppressWarnings("unchecked")
    private void writeAllUnchecked(Collection<Cache.Entry<? extends Long, ? extends Long>> entries) {
        ((CacheWriter<Long, Long>) writer).writeAll(entries);
    }

    /** Deletes keys. A writer that throws must first remove the keys it has deleted from its collection. */
    Written deleteAll(Collection<Long> keys) {
        Collection<Object> left = new ArrayList<>(keys);
        CacheWriterException failure = failure(() -> writer.deleteAll(left));
        Set<Long> done = new HashSet<>(keys);
        if (failure != null) {
            done.removeAll(new HashSet<>(left));
        }
        return new Written(done, failure);
    }

    private static CacheWriterException failure(Runnable work) {
        try {
            checked(work);
            return null;
        } catch (CacheWriterException e) {
            return e;
        }
    }

    private static void checked(Runnable work) {
        try {
            work.run();
        } catch (CacheWriterException e) {
            throw e;
        } catch (RuntimeException e) {
            throw new CacheWriterException(e);
        }
    }

    CacheWriter<? super Long, ? super Long> writer() {
        return writer;
    }
}
