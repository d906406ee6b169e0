package jentry.jcache.redis;

import java.util.Iterator;
import java.util.concurrent.CompletableFuture;
import java.util.concurrent.TimeUnit;
import java.util.function.ObjLongConsumer;
import jentry.jcache.CallNotSentException;
import jentry.jcache.CallOutcomeUnknownException;
import jentry.jcache.impl.ProcessorFile;
import jentry.jcache.store.Durations;
import jentry.jcache.store.Invocation;
import jentry.jcache.store.Mutation;
import jentry.jcache.store.Store;
import jentry.jcache.store.Watcher;

/**
 * A store in Redis whose writes the near caches of this JVM hear of. It has a near cache of its own if the options ask
 * for one. An access that sets a time to live counts as a write.
 */
final class NearStore implements Store {
    private final RedisStore store;
    private final OwnWrites writes;
    private final NearValues near;
    private final Invalidations invalidations;

    /**
     * Creates a store.
     *
     * @param most the greatest number of values of the near cache; 0: there is none
     * @throws javax.cache.CacheException if a master doesn't have the module, or no client-side caching
     */
    NearStore(RedisCluster cluster, String prefix, int most) {
        store = new RedisStore(cluster, prefix);
        near = most == 0 ? null : new NearValues(most);
        invalidations = most == 0 ? null : new Invalidations(cluster, prefix, near);
        writes = OwnWrites.join(prefix);
        if (near != null) {
            writes.add(near);
        }
    }

    @Override public Long kept(long key) {
        return near == null ? null : near.get(key, System.nanoTime());
    }

    @Override public Long getAndKeep(long key) {
        String node = near == null ? null : store.node(key);
        NearValues.Source source = near == null ? null : invalidations.of(node);
        if (source == null) {
            return store.get(key, Durations.LEAVE);
        }
        NearValues.Read read = near.begin(key);
        RedisStore.Timed found = null;
        long sent = System.nanoTime();
        try {
            found = store.timed(key, node);
        } catch (CallNotSentException | CallOutcomeUnknownException e) {
            // The read below connects again, or finds out why it can't.
        } finally {
            end(read, found, sent, source);
        }
        return found == null ? store.get(key, Durations.LEAVE) : found.value();
    }

    private void end(NearValues.Read read, RedisStore.Timed found, long sent, NearValues.Source source) {
        if (found != null && found.millis() == RedisStore.FOREVER) {
            near.end(read, found.value(), null, source);
        } else if (found != null && found.millis() > 0) {
            near.end(read, found.value(), sent + TimeUnit.MILLISECONDS.toNanos(found.millis()), source);
        } else {
            near.end(read, null, null, source);
        }
    }

    @Override public Long get(long key, long accessed) {
        return accessed == Durations.LEAVE ? store.get(key, accessed)
            : writes.make(() -> store.get(key, accessed), key);
    }

    @Override public CompletableFuture<Long> getAsync(long key, long accessed) {
        return accessed == Durations.LEAVE ? store.getAsync(key, accessed)
            : writes.start(() -> store.getAsync(key, accessed), key);
    }

    @Override public CompletableFuture<Void> setAsync(long key, long value, Durations durations) {
        return writes.start(() -> store.setAsync(key, value, durations), key);
    }

    @Override public boolean contains(long key) {
        return store.contains(key);
    }

    @Override public Long[] getAll(long[] keys, long accessed) {
        return accessed == Durations.LEAVE ? store.getAll(keys, accessed)
            : writes.make(() -> store.getAll(keys, accessed), keys);
    }

    @Override public Mutation set(long key, long value, When when, Durations durations, boolean asksBefore) {
        return writes.make(() -> store.set(key, value, when, durations, asksBefore), key);
    }

    @Override public void setAll(long[] keys, long[] values, Durations durations) {
        writes.make(() -> {
            store.setAll(keys, values, durations);
            return null;
        }, keys);
    }

    @Override public Mutation delete(long key, boolean asksBefore) {
        return writes.make(() -> store.delete(key, asksBefore), key);
    }

    @Override public long deleteAll(long[] keys) {
        return writes.make(() -> store.deleteAll(keys), keys);
    }

    @Override public Mutation compare(long key, long old, Long next, Durations durations, boolean asksBefore) {
        return writes.make(() -> store.compare(key, old, next, durations, asksBefore), key);
    }

    @Override public Invocation run(ProcessorFile file, long key, Object[] arguments, Durations durations) {
        return writes.make(() -> store.run(file, key, arguments, durations), key);
    }

    @Override public void runAll(ProcessorFile file, long[] keys, Object[] arguments, Durations durations,
        ObjLongConsumer<Invocation> taker) {
        writes.make(() -> {
            store.runAll(file, keys, arguments, durations, taker);
            return null;
        }, keys);
    }

    @Override public CompletableFuture<Invocation> runAsync(ProcessorFile file, long key, Object[] arguments,
        Durations durations) {
        return writes.start(() -> store.runAsync(file, key, arguments, durations), key);
    }

    @Override public void define(ProcessorFile file, long key) {
        store.define(file, key);
    }

    @Override public boolean hasDetail() {
        return store.hasDetail();
    }

    @Override public Invocation dryRun(ProcessorFile file, long key, Object[] arguments) {
        return store.dryRun(file, key, arguments);
    }

    @Override public Iterator<long[]> scan(String what) {
        return store.scan(what);
    }

    @Override public void clear() {
        try {
            store.clear();
        } finally {
            writes.madeOfAll();
        }
    }

    @Override public boolean hasExpiry() {
        return store.hasExpiry();
    }

    @Override public AutoCloseable watch(Watcher watcher) {
        return store.watch(watcher);
    }

    @Override public long sent() {
        return store.sent();
    }

    /** Ends the near cache. All caches of the manager share the other connections. */
    @Override public void close() {
        writes.leave(near);
        if (near != null) {
            invalidations.close();
            near.clear();
        }
    }
}
