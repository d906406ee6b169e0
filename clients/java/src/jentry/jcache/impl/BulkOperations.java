package jentry.jcache.impl;

import java.util.ArrayList;
import java.util.Arrays;
import java.util.HashMap;
import java.util.HashSet;
import java.util.Iterator;
import java.util.LinkedHashMap;
import java.util.List;
import java.util.Map;
import java.util.Set;
import java.util.stream.IntStream;
import java.util.stream.LongStream;
import javax.cache.Cache;
import javax.cache.CacheException;
import javax.cache.integration.CacheLoaderException;
import javax.cache.integration.CompletionListener;
import jentry.jcache.store.Durations;
import jentry.jcache.store.Mutation;
import jentry.jcache.store.Store;

/** The cache methods that take several keys. None of them is atomic over keys. */
public final class BulkOperations {
    private final CacheContext at;
    private final Store store;
    private final EntryOperations entries;

    /** Creates the methods of a cache. */
    public BulkOperations(CacheContext at, EntryOperations entries) {
        this.at = at;
        store = at.store;
        this.entries = entries;
    }

    /** Implements {@code getAll}: returns the keys that have entries, with their values. */
    public Map<Long, Long> getAll(long[] keys) {
        long begin = at.statistics.begin();
        Map<Long, Long> found = new HashMap<>();
        Long[] values = readAll(keys);
        List<Long> missing = new ArrayList<>();
        for (int i = 0; i < keys.length; i++) {
            if (values[i] == null) {
                missing.add(keys[i]);
            } else {
                found.put(keys[i], values[i]);
            }
        }
        if (at.loader.isOnMiss()) {
            at.loader.loadAll(missing).forEach((key, value) -> found.put(key, entries.loaded(key, value)));
        }
        at.statistics.got(keys.length - missing.size(), missing.size(), begin);
        return found;
    }

    private Long[] readAll(long[] keys) {
        if (keys.length == 0) {
            return new Long[0];
        } else if (at.expiry.isConstant()) {
            long accessed = at.expiry.constant().accessed();
            return accessed == Durations.LEAVE ? near(keys) : store.getAll(keys, accessed);
        }
        Long[] values = near(keys);
        for (int i = 0; i < keys.length; i++) {
            if (values[i] != null) {
                entries.touch(keys[i]);
            }
        }
        return values;
    }

    /** Returns the values that the near cache keeps, and the server's of the other keys. */
    private Long[] near(long[] keys) {
        Long[] values = new Long[keys.length];
        Arrays.setAll(values, i -> store.kept(keys[i]));
        int[] missing = IntStream.range(0, keys.length).filter(i -> values[i] == null).toArray();
        Long[] rest = store.getAll(IntStream.of(missing).mapToLong(i -> keys[i]).toArray(), Durations.LEAVE);
        for (int i = 0; i < missing.length; i++) {
            values[missing[i]] = rest[i];
        }
        return values;
    }

    /** Implements {@code putAll}. With a writer, only the entries that it has written are put. */
    public void putAll(Map<Long, Long> map) {
        if (map.isEmpty()) {
            return;
        }
        WriteThrough.Written written = at.writer.isThere() ? at.writer.writeAll(map) : null;
        Map<Long, Long> all = new LinkedHashMap<>(map);
        if (written != null) {
            all.keySet().retainAll(written.keys());
        }
        putWritten(all);
        if (written != null && written.failure() != null) {
            throw written.failure();
        }
    }

    private void putWritten(Map<Long, Long> all) {
        long begin = at.statistics.begin();
        int count = all.size();
        if (at.events.isAsked() || !at.expiry.isConstant() || at.expiry.constant().created() == Durations.ZERO) {
            count = 0;
            for (Map.Entry<Long, Long> it : all.entrySet()) {
                Mutation change = entries.commit(it.getKey(), it.getValue(), Store.When.ALWAYS, at.events.isAsked());
                if (change.done()) {
                    count++;
                    at.events.changed(it.getKey(), change.before(), it.getValue());
                }
            }
        } else if (!all.isEmpty()) {
            long[] keys = all.keySet().stream().mapToLong(it -> it).toArray();
            store.setAll(keys, all.values().stream().mapToLong(it -> it).toArray(), at.expiry.constant());
        }
        at.statistics.put(count, begin);
    }

    /** Implements {@code removeAll(keys)}. With a writer, only the keys that it has deleted are removed. */
    public void removeAll(long[] keys) {
        if (keys.length == 0) {
            return;
        }
        long begin = at.statistics.begin();
        long[] all = keys;
        WriteThrough.Written written = null;
        if (at.writer.isThere()) {
            written = at.writer.deleteAll(LongStream.of(keys).boxed().toList());
            all = written.keys().stream().mapToLong(it -> it).toArray();
        }
        long count = 0;
        if (at.events.isAsked()) {
            for (long key : all) {
                Mutation change = store.delete(key, true);
                count += change.done() ? 1 : 0;
                at.events.changed(key, change.before(), null);
            }
        } else if (all.length > 0) {
            count = store.deleteAll(all);
        }
        at.statistics.removed(count, begin);
        if (written != null && written.failure() != null) {
            throw written.failure();
        }
    }

    /** Implements {@code removeAll()}. A writer deletes no keys but those that have an entry. */
    public void removeAll() {
        for (Iterator<long[]> pages = store.scan("removeAll()"); pages.hasNext();) {
            long[] page = pages.next();
            removeAll(at.writer.isThere() ? existing(page) : page);
        }
    }

    /** Returns the keys that have an entry. A scan may return others too. */
    private long[] existing(long[] keys) {
        Long[] values = keys.length == 0 ? new Long[0] : store.getAll(keys, Durations.LEAVE);
        return IntStream.range(0, keys.length).filter(i -> values[i] != null).mapToLong(i -> keys[i]).toArray();
    }

    /** Implements {@code clear}, without the writer, the listeners and the statistics. */
    public void clear() {
        store.clear();
    }

    /** Implements {@code size}: counts the entries that a scan finds. */
    public long size() {
        Set<Long> found = new HashSet<>();
        for (Iterator<long[]> pages = store.scan("size"); pages.hasNext();) {
            LongStream.of(existing(pages.next())).forEach(found::add);
        }
        return found.size();
    }

    /** Implements {@code iterator}. */
    public Iterator<Cache.Entry<Long, Long>> iterator() {
        return new EntryIterator(at, store.scan("iterator"), this::readAll, key -> entries.delete(key, false));
    }

    /** Implements {@code loadAll}: loads in a separate thread if there is a loader. */
    public void loadAll(List<Long> keys, boolean replaces, CompletionListener listener) {
        if (!at.loader.isThere()) {
            if (listener != null) {
                listener.onCompletion();
            }
            return;
        }
        Thread thread = new Thread(() -> loadAndReport(keys, replaces, listener), "jentry-load-" + at.cache.getName());
        thread.setDaemon(true);
        thread.start();
    }

    private void loadAndReport(List<Long> keys, boolean replaces, CompletionListener listener) {
        Exception failure = null;
        try {
            load(keys, replaces);
        } catch (CacheException e) {
            failure = e;
        } catch (RuntimeException e) {
            failure = new CacheLoaderException(e);
        }
        if (listener == null) {
            return;
        } else if (failure == null) {
            listener.onCompletion();
        } else {
            listener.onException(failure);
        }
    }

    private void load(List<Long> keys, boolean replaces) {
        List<Long> wanted = new ArrayList<>(keys);
        if (!replaces) {
            Long[] values = store.getAll(keys.stream().mapToLong(it -> it).toArray(), Durations.LEAVE);
            wanted.clear();
            for (int i = 0; i < values.length; i++) {
                if (values[i] == null) {
                    wanted.add(keys.get(i));
                }
            }
        }
        Store.When when = replaces ? Store.When.ALWAYS : Store.When.ABSENT;
        at.loader.loadAll(wanted).forEach((key, value) -> {
            Mutation change = entries.commit(key, value, when, at.events.isAsked());
            if (change.done()) {
                at.events.changed(key, change.before(), value);
            }
        });
    }
}
