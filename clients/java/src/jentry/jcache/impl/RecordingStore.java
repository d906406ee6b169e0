package jentry.jcache.impl;

import java.util.Iterator;
import java.util.concurrent.CompletableFuture;
import java.util.function.ObjLongConsumer;
import jentry.jcache.store.Durations;
import jentry.jcache.store.Invocation;
import jentry.jcache.store.Mutation;
import jentry.jcache.store.Store;
import jentry.jcache.store.Watcher;

/** A store that records the last values of its entries, for the events about those that expire. */
final class RecordingStore implements Store {
    private final Store store;
    private final LastValues last;

    RecordingStore(Store store, LastValues last) {
        this.store = store;
        this.last = last;
    }

    @Override public Long get(long key, long accessed) {
        Long value = store.get(key, accessed);
        last.read(key, value, accessed);
        return value;
    }

    @Override public Long kept(long key) {
        return store.kept(key);
    }

    @Override public Long getAndKeep(long key) {
        Long value = store.getAndKeep(key);
        last.read(key, value, Durations.LEAVE);
        return value;
    }

    @Override public CompletableFuture<Long> getAsync(long key, long accessed) {
        return store.getAsync(key, accessed).thenApply(value -> {
            last.read(key, value, accessed);
            return value;
        });
    }

    @Override public CompletableFuture<Void> setAsync(long key, long value, Durations durations) {
        return store.setAsync(key, value, durations).thenRun(() -> last.set(key, value, durations.created()));
    }

    @Override public boolean contains(long key) {
        return store.contains(key);
    }

    @Override public Long[] getAll(long[] keys, long accessed) {
        Long[] values = store.getAll(keys, accessed);
        for (int i = 0; i < keys.length; i++) {
            last.read(keys[i], values[i], accessed);
        }
        return values;
    }

    @Override public Mutation set(long key, long value, When when, Durations durations, boolean asksBefore) {
        Mutation change = store.set(key, value, when, durations, asksBefore);
        if (change.done()) {
            boolean isNew = change.existed() == null ? when != When.PRESENT : !change.existed();
            last.set(key, value, isNew ? durations.created() : durations.updated());
        }
        return change;
    }

    @Override public void setAll(long[] keys, long[] values, Durations durations) {
        store.setAll(keys, values, durations);
        for (int i = 0; i < keys.length; i++) {
            last.set(keys[i], values[i], durations.created());
        }
    }

    @Override public Mutation delete(long key, boolean asksBefore) {
        Mutation change = store.delete(key, asksBefore);
        last.removed(key);
        return change;
    }

    @Override public long deleteAll(long[] keys) {
        long count = store.deleteAll(keys);
        for (long key : keys) {
            last.removed(key);
        }
        return count;
    }

    @Override public Mutation compare(long key, long old, Long next, Durations durations, boolean asksBefore) {
        Mutation change = store.compare(key, old, next, durations, asksBefore);
        if (change.done() && next == null) {
            last.removed(key);
        } else if (change.done()) {
            last.set(key, next, durations.updated());
        }
        return change;
    }

    private Invocation ran(long key, Invocation done, Durations durations) {
        last.ran(key, done, durations);
        return done;
    }

    @Override public Invocation run(ProcessorFile file, long key, Object[] arguments, Durations durations) {
        return ran(key, store.run(file, key, arguments, durations), durations);
    }

    @Override public void runAll(ProcessorFile file, long[] keys, Object[] arguments, Durations durations,
        ObjLongConsumer<Invocation> taker) {
        store.runAll(file, keys, arguments, durations, (done, key) -> taker.accept(ran(key, done, durations), key));
    }

    @Override public CompletableFuture<Invocation> runAsync(ProcessorFile file, long key, Object[] arguments,
        Durations durations) {
        return store.runAsync(file, key, arguments, durations).thenApply(done -> ran(key, done, durations));
    }

    @Override public void define(ProcessorFile file, long key) {
        store.define(file, key);
    }

    @Override public boolean hasDetail() {
        return store.hasDetail();
    }

    @Override public Invocation dryRun(ProcessorFile file, long key, Object[] arguments) {
        return store.dryRun(file, key, arguments);
    }

    @Override public Iterator<long[]> scan(String what) {
        return store.scan(what);
    }

    @Override public void clear() {
        store.clear();
    }

    @Override public boolean hasExpiry() {
        return store.hasExpiry();
    }

    @Override public AutoCloseable watch(Watcher watcher) {
        return store.watch(watcher);
    }

    @Override public long sent() {
        return store.sent();
    }

    @Override public void close() {
        store.close();
    }
}
