package jentry.jcache.impl;

import java.util.HashMap;
import java.util.Map;
import java.util.concurrent.CompletableFuture;
import java.util.concurrent.CompletionException;
import java.util.concurrent.ConcurrentHashMap;
import java.util.concurrent.ThreadLocalRandom;
import java.util.concurrent.atomic.LongAdder;
import java.util.concurrent.locks.LockSupport;
import java.util.function.Supplier;
import javax.cache.CacheException;
import javax.cache.processor.EntryProcessor;
import javax.cache.processor.EntryProcessorException;
import javax.cache.processor.EntryProcessorResult;
import jentry.jcache.ProcessorRefusedException;
import jentry.jcache.store.Durations;
import jentry.jcache.store.Effect;
import jentry.jcache.store.Invocation;
import jentry.jcache.store.Store;

/**
 * Runs processors at the server, or in this JVM if the server can't run them and {@code jentry.local} is true. A run in
 * this JVM reads the entry, runs the processor and commits by compare-and-set; if the entry has changed meanwhile, the
 * processor runs again.
 *
 * <p>A class that the server accepts runs in this JVM too where somebody in this JVM takes part in the run: the loader
 * of an absent entry, and on a store that doesn't report what a run did also the writer, the listeners and the
 * statistics. The server has judged the class, so it does here what it would do there.
 */
public final class ProcessorInvoker {
    private static final System.Logger LOG = System.getLogger("jentry.jcache");
    static final int MOST_ARGUMENTS = 8;
    private static final long FIRST_PAUSE_NANOS = 20_000;
    private static final int MOST_DOUBLINGS = 8;

    private final CacheContext at;
    private final Store store;
    private final EntryOperations entries;
    private final Map<ProcessorFile, ProcessorRefusedException> refused = new ConcurrentHashMap<>();
    private final Map<String, LongAdder> localRuns = new ConcurrentHashMap<>();

    /** Creates the methods of a cache. */
    public ProcessorInvoker(CacheContext at, EntryOperations entries) {
        this.at = at;
        store = at.store;
        this.entries = entries;
    }

    /** Returns the number of runs in this JVM, by the class names of the processors. */
    public Map<String, Long> localRuns() {
        Map<String, Long> all = new HashMap<>();
        localRuns.forEach((type, runs) -> all.put(type, runs.sum()));
        return all;
    }

    /**
     * Where a call runs: at the server from a class file, or in this JVM for a reason.
     *
     * @param file the class file, or null
     * @param reason why the server can't run it, or null
     */
    private record Way(ProcessorFile file, RuntimeException reason) { }

    private Way way(EntryProcessor<?, ?, ?> processor, Object[] arguments) {
        RuntimeException reason = unsendable(arguments);
        ProcessorFile file = null;
        if (reason == null) {
            try {
                file = ProcessorFile.of(processor, at.isCompiling);
                reason = refused.get(file);
                file.sent(processor, arguments);
            } catch (CacheException | IllegalArgumentException e) {
                reason = e;
            }
        }
        if (reason != null && !at.isLocal) {
            throw reason;
        }
        return new Way(file, reason);
    }

    private static RuntimeException unsendable(Object[] arguments) {
        if (arguments.length > MOST_ARGUMENTS) {
            return new IllegalArgumentException(
                "an invocation takes at most " + MOST_ARGUMENTS + " arguments, not " + arguments.length);
        }
        for (int i = 0; i < arguments.length; i++) {
            Object it = arguments[i];
            if (it != null && !(it instanceof Long) && !(it instanceof Integer) && !(it instanceof Boolean)) {
                return new IllegalArgumentException("an argument is a Long, an Integer, a Boolean or null; argument "
                    + (i + 1) + " is a " + it.getClass().getName());
            }
        }
        return null;
    }

    /**
     * Records the refusal of a class, together with the compiler's reason if the class was sent uncompiled because of
     * one. Throws the refusal if the processor may not run in this JVM.
     */
    private void refuse(Way way, ProcessorRefusedException e) {
        String problem = way.file().problem();
        ProcessorRefusedException reason = problem == null ? e
            : new ProcessorRefusedException(way.file().type(), e, problem);
        refused.put(way.file(), reason);
        if (!at.isLocal) {
            throw reason;
        }
    }

    /** Implements {@code invoke}. */
    @SuppressWarnings("unchecked")
    public <T> T invoke(long key, EntryProcessor<Long, Long, T> processor, Object[] arguments) {
        Way way = way(processor, arguments);
        if (way.reason() == null) {
            try {
                if (!isWatched() && !isToBeLoaded(key)) {
                    return (T) there(key, processor, way.file(), arguments);
                }
                store.define(way.file(), key);
                return here(key, processor, arguments);
            } catch (ProcessorRefusedException e) {
                refuse(way, e);
            }
        }
        countLocal(processor);
        return here(key, processor, arguments);
    }

    /** Returns whether somebody in this JVM has to know what a run did, which the store doesn't report. */
    private boolean isWatched() {
        return !store.hasDetail() && (at.writer.isThere() || at.events.isAsked() || at.statistics.isEnabled());
    }

    /** Returns whether the entry is absent and a loader in this JVM makes it if the processor asks for the value. */
    private boolean isToBeLoaded(long key) {
        return at.loader.isOnMiss() && !store.contains(key);
    }

    /**
     * Returns whether a run is split into a dry run and a commit, because a writer or an expiry policy is called in
     * between.
     */
    private boolean isDivided() {
        return store.hasDetail() && (at.writer.isThere() || !at.expiry.isConstant());
    }

    private Object there(long key, EntryProcessor<Long, Long, ?> processor, ProcessorFile file, Object[] arguments) {
        long begin = at.statistics.begin();
        if (isDivided()) {
            return divided(key, processor, file, arguments, begin);
        }
        Invocation done = store.run(file, key, file.sent(processor, arguments), timesOfRuns());
        if (isAccess(key, done, processor, arguments)) {
            entries.touch(key);
        }
        return counted(key, done, begin);
    }

    /** Returns the times to live for a run at the server. An access isn't among them: {@link #isAccess} decides it. */
    private Durations timesOfRuns() {
        Durations times = at.expiry.constant();
        return new Durations(times.created(), times.updated(), Durations.LEAVE);
    }

    /**
     * Returns whether a run at the server was an access that gives its entry a time: it left the entry, and it read the
     * value. The server doesn't report what a run read. It has accepted the class, so a run in this JVM on the same
     * value does the same.
     */
    private boolean isAccess(long key, Invocation done, EntryProcessor<Long, Long, ?> processor, Object[] arguments) {
        boolean isLeft = done.failure() == null && done.effect() == Effect.KEEP && done.before() != null;
        if (!isLeft || at.expiry.isConstant() && at.expiry.forAccess() == Durations.LEAVE) {
            return false;
        }
        LocalEntry entry = new LocalEntry(key, done.before(), it -> null);
        processor.process(entry, arguments);
        return entry.isAccessed();
    }

    /**
     * Counts a run and calls the listeners, as far as the store reports what happened. Returns the result or throws.
     */
    private Object counted(long key, Invocation done, long begin) {
        Object result = done.result();
        if (done.effect() != null) {
            boolean isThere = done.before() != null || done.after() != null;
            counted(key, isThere ? done.effect() : Effect.KEEP, done.before(), done.after(), begin);
        }
        return result;
    }

    private void counted(long key, Effect effect, Long before, Long after, long begin) {
        at.statistics.ran(before != null, effect, begin);
        if (effect != Effect.KEEP) {
            at.events.changed(key, before, after);
        }
    }

    private Object divided(long key, EntryProcessor<Long, Long, ?> processor, ProcessorFile file, Object[] arguments,
        long begin) {
        return at.locks.with(key, () -> {
            for (int tries = 0; tries < EntryOperations.MOST_TRIES; tries++) {
                Invocation dry = store.dryRun(file, key, file.sent(processor, arguments));
                dry.result();
                Effect effect = isRemovalOfNone(key, dry, processor, arguments) ? Effect.DELETE : dry.effect();
                Effect committed = commit(key, effect, dry.before(), dry.after(),
                    isAccess(key, dry, processor, arguments));
                if (committed != null) {
                    counted(key, committed, dry.before(), dry.after(), begin);
                    return dry.value();
                }
                pause(tries);
            }
            throw EntryOperations.spoiled(key);
        });
    }

    /**
     * Returns whether a run called {@code remove} on an absent entry, which the writer deletes all the same. The server
     * reports such a run like one that left the entry. It has accepted the class, so a run in this JVM does the same.
     */
    private boolean isRemovalOfNone(long key, Invocation dry, EntryProcessor<Long, Long, ?> processor,
        Object[] arguments) {
        if (!at.writer.isThere() || dry.before() != null || dry.effect() != Effect.KEEP) {
            return false;
        }
        LocalEntry entry = new LocalEntry(key, null, it -> null);
        processor.process(entry, arguments);
        return entry.effect() == Effect.DELETE;
    }

    private static void pause(int tries) {
        long most = FIRST_PAUSE_NANOS << Math.min(tries, MOST_DOUBLINGS);
        LockSupport.parkNanos(ThreadLocalRandom.current().nextLong(1, most));
    }

    /**
     * Applies what a run did to the store, if the entry is still the one the run started with. Returns what has become
     * of the entry, or null if it was another one.
     */
    private Effect commit(long key, Effect effect, Long before, Long after, boolean isAccess) {
        if (effect == Effect.KEEP) {
            if (before != null && isAccess) {
                entries.touch(key);
            }
            return effect;
        } else if (effect == Effect.DELETE) {
            at.writer.delete(key);
            return before == null || store.compare(key, before, null, Durations.NONE, false).done() ? effect : null;
        }
        at.writer.write(key, after);
        return set(key, before, after);
    }

    /** Sets the value of a run. An entry that expires as it is created is never there. */
    private Effect set(long key, Long before, Long after) {
        if (before != null) {
            return store.compare(key, before, after, at.expiry.forUpdate(), false).done() ? Effect.PUT : null;
        }
        Durations times = at.expiry.forCreation();
        if (times.created() == Durations.ZERO) {
            return Effect.KEEP;
        }
        return store.set(key, after, Store.When.ABSENT, times, false).done() ? Effect.PUT : null;
    }

    private <T> T here(long key, EntryProcessor<Long, Long, T> processor, Object[] arguments) {
        long begin = at.statistics.begin();
        return at.locks.with(key, () -> {
            for (int tries = 0; tries < EntryOperations.MOST_TRIES; tries++) {
                Long before = store.get(key, Durations.LEAVE);
                LocalEntry entry = new LocalEntry(key, before, at.loader::load);
                T result = process(processor, entry, arguments);
                Effect committed = entry.isLoaded() ? set(key, before, entry.value())
                    : commit(key, entry.effect(), before, entry.value(), entry.isAccessed());
                if (committed != null) {
                    at.statistics.ran(before != null, entry.isLoaded() ? Effect.KEEP : committed, begin);
                    if (committed != Effect.KEEP) {
                        at.events.changed(key, before, entry.value());
                    }
                    return result;
                }
                pause(tries);
            }
            throw EntryOperations.spoiled(key);
        });
    }

    /** Counts a run of a class that the server didn't judge or refuses. */
    private void countLocal(EntryProcessor<Long, Long, ?> processor) {
        String type = processor.getClass().getName();
        localRuns.computeIfAbsent(type, it -> {
            LOG.log(System.Logger.Level.INFO, "the processor " + type
                + " runs in this JVM, not verified, for the cache " + at.cache.getName() + " (jentry.local)");
            return new LongAdder();
        }).increment();
    }

    private static <T> T process(EntryProcessor<Long, Long, T> processor, LocalEntry entry, Object[] arguments) {
        try {
            return processor.process(entry, arguments);
        } catch (EntryProcessorException e) {
            throw e;
        } catch (Exception e) {
            throw new EntryProcessorException(e);
        }
    }

    /**
     * Implements {@code invokeAll}: the result of a key throws what its processor threw; keys with null are left out.
     */
    public <T> Map<Long, EntryProcessorResult<T>> invokeAll(long[] keys, EntryProcessor<Long, Long, T> processor,
        Object[] arguments) {
        Way way = way(processor, arguments);
        Map<Long, EntryProcessorResult<T>> results = new HashMap<>();
        if (way.reason() == null && !isDivided() && !isWatched() && !at.loader.isOnMiss()) {
            try {
                allThere(keys, processor, way.file(), arguments, results);
                return results;
            } catch (ProcessorRefusedException e) {
                refuse(way, e);
            }
        }
        for (long key : keys) {
            Invocation done;
            try {
                done = Invocation.of(invoke(key, processor, arguments));
            } catch (EntryProcessorException e) {
                done = Invocation.failed(() -> again(e));
            }
            add(results, key, done);
        }
        return results;
    }

    /** Returns a copy of the exception, so that each call of a result has its own stack trace. */
    private static EntryProcessorException again(EntryProcessorException e) {
        return new EntryProcessorException(e.getMessage(), e.getCause());
    }

    private <T> void allThere(long[] keys, EntryProcessor<Long, Long, T> processor, ProcessorFile file,
        Object[] arguments, Map<Long, EntryProcessorResult<T>> results) {
        long begin = at.statistics.begin();
        Map<Long, Invocation> all = new HashMap<>();
        store.runAll(file, keys, file.sent(processor, arguments), timesOfRuns(), (done, key) -> all.put(key, done));
        long[] accessed = all.entrySet().stream().filter(it -> isAccess(it.getKey(), it.getValue(), processor, arguments))
            .mapToLong(Map.Entry::getKey).toArray();
        if (accessed.length > 0) {
            store.getAll(accessed, at.expiry.forAccess());
        }
        all.forEach((key, done) -> add(results, key, done));
        at.statistics.got(0, 0, begin);
        all.forEach((key, done) -> {
            if (done.failure() == null) {
                counted(key, done, 0);
            }
        });
    }

    @SuppressWarnings("unchecked")
    private static <T> void add(Map<Long, EntryProcessorResult<T>> results, long key, Invocation done) {
        if (!done.isNull()) {
            results.put(key, () -> {
                try {
                    return (T) done.result();
                } catch (EntryProcessorException e) {
                    throw e;
                } catch (CacheException e) {
                    throw new EntryProcessorException(e);
                }
            });
        }
    }

    /** Implements {@code invokeAsync}. */
    @SuppressWarnings("unchecked")
    public <T> CompletableFuture<T> invokeAsync(long key, EntryProcessor<Long, Long, T> processor, Object[] arguments) {
        Way way = way(processor, arguments);
        if (way.reason() == null && !isDivided() && !isWatched() && !at.loader.isOnMiss()) {
            long begin = at.statistics.begin();
            try {
                CompletableFuture<T> result = new CompletableFuture<>();
                store.runAsync(way.file(), key, way.file().sent(processor, arguments), timesOfRuns())
                    .thenCompose(done -> isAccess(key, done, processor, arguments)
                        ? store.getAsync(key, at.expiry.forAccess()).thenApply(value -> done)
                        : CompletableFuture.completedFuture(done))
                    .whenComplete((done, e) -> complete(result, () -> (T) counted(key, done, begin), e));
                return result;
            } catch (ProcessorRefusedException e) {
                refuse(way, e);
            }
        }
        return CompletableFuture.supplyAsync(() -> invoke(key, processor, arguments));
    }

    private static <T> void complete(CompletableFuture<T> result, Supplier<T> value, Throwable failure) {
        if (failure != null) {
            result.completeExceptionally(failure instanceof CompletionException ? failure.getCause() : failure);
            return;
        }
        try {
            result.complete(value.get());
        } catch (RuntimeException e) {
            result.completeExceptionally(e);
        }
    }
}
