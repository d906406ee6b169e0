package jentry.jcache.impl;

import java.util.Objects;
import java.util.concurrent.CompletableFuture;
import java.util.function.Supplier;
import javax.cache.CacheException;
import jentry.jcache.store.Durations;
import jentry.jcache.store.Mutation;
import jentry.jcache.store.Store;

/**
 * The cache methods on one key. Each is one atomic step of the store, plus what the configuration requires, in this
 * order: the writer, the store, the statistics, the listeners.
 *
 * <p>With a custom expiry policy a change takes two steps. Whether there is an entry decides which method of the policy
 * is called; the change is made only if that is still so, and is retried otherwise.
 */
public final class EntryOperations {
    /** The maximum number of attempts of a change that conflicts with other changes. */
    static final int MOST_TRIES = 1_000;

    private final CacheContext at;
    private final Store store;

    /** Creates the methods of a cache. */
    public EntryOperations(CacheContext at) {
        this.at = at;
        store = at.store;
    }

    static CacheException spoiled(long key) {
        return new CacheException("others changed the entry of " + key + " " + MOST_TRIES
            + " times in between; this call changed nothing");
    }

    /** Implements {@code get}. */
    public Long get(long key) {
        long begin = at.statistics.begin();
        Long value = read(key);
        boolean isHit = value != null;
        if (!isHit) {
            value = loaded(key, at.loader.load(key));
        }
        at.statistics.got(isHit ? 1 : 0, isHit ? 0 : 1, begin);
        return value;
    }

    /** Implements {@code getAsync}. */
    public CompletableFuture<Long> getAsync(long key) {
        if (at.loader.isOnMiss() || !at.expiry.isConstant()) {
            return CompletableFuture.supplyAsync(() -> get(key));
        }
        long begin = at.statistics.begin();
        long accessed = at.expiry.constant().accessed();
        Long kept = accessed == Durations.LEAVE ? store.kept(key) : null;
        CompletableFuture<Long> read = kept == null ? store.getAsync(key, accessed)
            : CompletableFuture.completedFuture(kept);
        return read.thenApply(value -> {
            at.statistics.got(value == null ? 0 : 1, value == null ? 1 : 0, begin);
            return value;
        });
    }

    /** Implements {@code putAsync}. */
    public CompletableFuture<Void> putAsync(long key, long value) {
        boolean isPlain = !at.writer.isThere() && !at.events.isAsked() && at.expiry.isConstant()
            && at.expiry.constant().created() != Durations.ZERO;
        if (!isPlain) {
            return CompletableFuture.runAsync(() -> set(key, value, Store.When.ALWAYS, false, false));
        }
        long begin = at.statistics.begin();
        return store.setAsync(key, value, at.expiry.constant()).thenRun(() -> at.statistics.put(1, begin));
    }

    private Long read(long key) {
        if (at.expiry.isConstant()) {
            long accessed = at.expiry.constant().accessed();
            return accessed == Durations.LEAVE ? near(key) : store.get(key, accessed);
        }
        Long value = near(key);
        if (value != null) {
            touch(key);
        }
        return value;
    }

    /** Returns the value that the near cache keeps, or else the server's. */
    private Long near(long key) {
        Long kept = store.kept(key);
        return kept != null ? kept : store.getAndKeep(key);
    }

    /** Sets the time to live of an entry that was accessed. */
    void touch(long key) {
        long time = at.expiry.forAccess();
        if (time != Durations.LEAVE) {
            store.get(key, time);
        }
    }

    /** Puts a loaded value if there is still no entry. Returns that value, or the one that is there instead. */
    Long loaded(long key, Long value) {
        if (value == null) {
            return null;
        }
        if (commit(key, value, Store.When.ABSENT, false).done()) {
            at.events.changed(key, null, value);
            return value;
        }
        Long other = store.get(key, Durations.LEAVE);
        return other == null ? value : other;
    }

    /** Implements {@code containsKey}. */
    public boolean contains(long key) {
        return store.contains(key);
    }

    /** Runs the work on one key. If there is a writer, only one thread of this JVM at a time works on a key. */
    private <T> T guarded(long key, Supplier<T> work) {
        return at.writer.isThere() ? at.locks.with(key, work) : work.get();
    }

    /**
     * Implements {@code put} and the methods like it.
     *
     * @param isLookup whether the method counts as a hit or a miss
     */
    public Mutation set(long key, long value, Store.When when, boolean asksBefore, boolean isLookup) {
        long begin = at.statistics.begin();
        Mutation change = guarded(key, () -> {
            if (at.writer.isThere() && isToBeSet(key, when)) {
                at.writer.write(key, value);
            }
            return commit(key, value, when, asksBefore || at.events.isAsked());
        });
        if (isLookup) {
            at.statistics.looked(change.existed());
        }
        if (change.done()) {
            at.statistics.put(1, begin);
            at.events.changed(key, change.before(), value);
        }
        return change;
    }

    private boolean isToBeSet(long key, Store.When when) {
        return when == Store.When.ALWAYS || store.contains(key) == (when == Store.When.PRESENT);
    }

    /**
     * Sets a value in the store, with the time to live for a creation or an update. An entry that expires as it is
     * created is never there.
     */
    Mutation commit(long key, long value, Store.When when, boolean asksBefore) {
        if (at.expiry.isConstant()) {
            Durations times = at.expiry.constant();
            boolean isCreated = times.created() != Durations.ZERO;
            if (!isCreated && when == Store.When.ABSENT) {
                return new Mutation(false, store.contains(key), null);
            }
            return store.set(key, value, isCreated ? when : Store.When.PRESENT, times, asksBefore);
        }
        for (int tries = 0; tries < MOST_TRIES; tries++) {
            boolean exists = store.contains(key);
            if (when != Store.When.ALWAYS && exists != (when == Store.When.PRESENT)) {
                return new Mutation(false, exists, null);
            }
            Durations times = exists ? at.expiry.forUpdate() : at.expiry.forCreation();
            if (!exists && times.created() == Durations.ZERO) {
                return new Mutation(false, false, null);
            }
            Store.When same = exists ? Store.When.PRESENT : Store.When.ABSENT;
            Mutation change = store.set(key, value, same, times, asksBefore);
            if (change.done()) {
                return change;
            }
        }
        throw spoiled(key);
    }

    /**
     * Implements {@code remove} and {@code getAndRemove}.
     *
     * @param isLookup whether the method counts as a hit or a miss
     */
    public Mutation delete(long key, boolean isLookup) {
        long begin = at.statistics.begin();
        Mutation change = guarded(key, () -> {
            at.writer.delete(key);
            return store.delete(key, isLookup || at.events.isAsked());
        });
        if (isLookup) {
            at.statistics.looked(change.existed());
        }
        if (change.done()) {
            at.statistics.removed(1, begin);
            at.events.changed(key, change.before(), null);
        }
        return change;
    }

    /** Implements {@code replace(key, old, next)}, or {@code remove(key, old)} if {@code next} is null. */
    public boolean compare(long key, long old, Long next) {
        long begin = at.statistics.begin();
        Mutation change = guarded(key, () -> {
            if (at.writer.isThere() && Objects.equals(store.get(key, Durations.LEAVE), old)) {
                write(key, next);
            }
            return at.expiry.isConstant() ? compareAndSet(key, old, next, at.expiry.constant())
                : compareByPolicy(key, old, next);
        });
        at.statistics.looked(change.existed());
        if (change.done()) {
            if (next == null) {
                at.statistics.removed(1, begin);
            } else {
                at.statistics.put(1, begin);
            }
            at.events.changed(key, old, next);
        }
        return change.done();
    }

    private Mutation compareAndSet(long key, long old, Long next, Durations times) {
        return store.compare(key, old, next, times, at.statistics.isEnabled() || at.events.isAsked());
    }

    private Mutation compareByPolicy(long key, long old, Long next) {
        for (int tries = 0; tries < MOST_TRIES; tries++) {
            Long value = store.get(key, Durations.LEAVE);
            if (value == null) {
                return new Mutation(false, false, null);
            } else if (value != old) {
                touch(key);
                return new Mutation(false, true, value);
            }
            Mutation change = compareAndSet(key, old, next, next == null ? Durations.NONE : at.expiry.forUpdate());
            if (change.done()) {
                return change;
            }
        }
        throw spoiled(key);
    }

    /** Calls the writer before a change, if there is one; a null value is a removal. */
    void write(long key, Long value) {
        if (value == null) {
            at.writer.delete(key);
        } else {
            at.writer.write(key, value);
        }
    }
}
