package jentry.jcache.store;

import java.util.Iterator;
import java.util.concurrent.CompletableFuture;
import java.util.function.ObjLongConsumer;
import jentry.jcache.impl.ProcessorFile;

/**
 * The entries of one cache in a server. Each method on one key is one atomic step at the server; methods on several
 * keys aren't atomic over keys. The previous value is returned only if {@code asksBefore} is true.
 *
 * <p>Every method throws CacheException if the server isn't reachable or replies with an error, and
 * UnsupportedOperationException if the server has no such request.
 */
public interface Store {
    /** When a value is set. */
    enum When {
        /** Always. */
        ALWAYS,
        /** Only if there is no entry. */
        ABSENT,
        /** Only if there is an entry. */
        PRESENT
    }

    /** Returns the value of a key, or null. The entry gets the time to live {@code accessed}. */
    Long get(long key, long accessed);

    /**
     * Returns a value that a near cache in this JVM keeps of a key, or null. Another client may have changed the entry a
     * moment ago.
     */
    default Long kept(long key) {
        return null;
    }

    /** Reads a value at the server and leaves the time to live; a near cache in this JVM may keep the value. */
    default Long getAndKeep(long key) {
        return get(key, Durations.LEAVE);
    }

    /**
     * Reads a value like {@link #get} without blocking.
     *
     * @throws java.util.concurrent.RejectedExecutionException if too many calls are waiting
     */
    CompletableFuture<Long> getAsync(long key, long accessed);

    /**
     * Sets a value unconditionally without blocking.
     *
     * @throws java.util.concurrent.RejectedExecutionException if too many calls are waiting
     */
    CompletableFuture<Void> setAsync(long key, long value, Durations durations);

    /** Returns whether there is an entry. Its time to live doesn't change. */
    boolean contains(long key);

    /** Returns the values in the order of the keys; null where there is no entry. */
    Long[] getAll(long[] keys, long accessed);

    /** Sets a value. */
    Mutation set(long key, long value, When when, Durations durations, boolean asksBefore);

    /** Sets values unconditionally. */
    void setAll(long[] keys, long[] values, Durations durations);

    /** Deletes an entry. */
    Mutation delete(long key, boolean asksBefore);

    /** Deletes entries and returns how many there were. */
    long deleteAll(long[] keys);

    /** If the value is {@code old}, sets {@code next}, or deletes the entry if {@code next} is null. */
    Mutation compare(long key, long old, Long next, Durations durations, boolean asksBefore);

    /**
     * Runs a processor.
     *
     * @param arguments at most eight, each a Long, an Integer, a Boolean or null
     * @throws jentry.jcache.ProcessorRefusedException if the server refuses the class
     */
    Invocation run(ProcessorFile file, long key, Object[] arguments, Durations durations);

    /** Runs a processor on each of the keys. Keys whose processor returned null may be left out. */
    void runAll(ProcessorFile file, long[] keys, Object[] arguments, Durations durations,
        ObjLongConsumer<Invocation> taker);

    /**
     * Runs a processor without blocking, except to define a class that is new to the server.
     *
     * @throws java.util.concurrent.RejectedExecutionException if too many calls are waiting
     */
    CompletableFuture<Invocation> runAsync(ProcessorFile file, long key, Object[] arguments, Durations durations);

    /**
     * Has the server judge a class that will run in this JVM.
     *
     * @param key the key on which it will run
     * @throws jentry.jcache.ProcessorRefusedException if the server refuses the class
     */
    void define(ProcessorFile file, long key);

    /** Returns whether {@link #dryRun} is supported and {@link Invocation} has the effect and both values. */
    boolean hasDetail();

    /** Runs a processor without changing the entry; the result says what the run would have done. */
    Invocation dryRun(ProcessorFile file, long key, Object[] arguments);

    /**
     * Returns pages of keys, in no order. A key may appear twice; keys that are created or removed meanwhile may be
     * missed. Keys without an entry may be among them.
     *
     * @param what the calling method of the cache, for messages
     */
    Iterator<long[]> scan(String what);

    /** Deletes the entries that exist while the call runs. */
    void clear();

    /** Returns whether entries can expire. */
    boolean hasExpiry();

    /** Starts passing events to the watcher; closing the returned object stops it. */
    AutoCloseable watch(Watcher watcher);

    /** Returns the number of calls sent, each with one or more requests. */
    long sent();

    /** Releases what only this cache uses of the store. */
    void close();
}
