package jentry.jcache.stream;

import java.io.IOException;
import java.util.Arrays;
import java.util.Iterator;
import java.util.concurrent.CompletableFuture;
import java.util.concurrent.atomic.AtomicLong;
import java.util.function.Function;
import java.util.function.ObjLongConsumer;
import java.util.function.Predicate;
import java.util.function.Supplier;
import javax.cache.CacheException;
import jentry.jcache.impl.BuiltIn;
import jentry.jcache.impl.ProcessorFile;
import jentry.jcache.store.Durations;
import jentry.jcache.store.Invocation;
import jentry.jcache.store.Mutation;
import jentry.jcache.store.Store;
import jentry.jcache.store.Watcher;

/**
 * The entries of a server at the other end of a stream. Each operation that JCache defines as atomic is one request, or
 * one run of a built-in processor at the server. The protocol has no times to live, no request for the keys and no
 * events, and its reply to an invocation has only the result. The keys of a child process are those that this store has
 * put there.
 */
public final class StreamStore implements Store {
    private static final int BULK = 1_024;
    private static final byte[] NONE = Wire.arguments();

    private final Sessions sessions;
    private final KnownKeys keys;

    /** @param keys the keys that may have an entry, or null if others use the server too */
    StreamStore(Sessions sessions, KnownKeys keys) {
        this.sessions = sessions;
        this.keys = keys;
    }

    private static UnsupportedOperationException lacks(String what, String why) {
        return new UnsupportedOperationException(
            what + ": " + why + "; a cache in Redis has it (jentry+redis://HOST:PORT)");
    }

    private static byte[] arguments(Object... arguments) {
        return arguments.length == 0 ? NONE : Wire.arguments(arguments);
    }

    private Object call(Wire.Out text, int expected, String what) {
        return sessions.make(it -> new Calls.One(text, expected, what)).answer();
    }

    private static Wire.Out invocation(int number, long key, byte[] arguments) {
        return new Wire.Out(17 + arguments.length).invoke(number, key, arguments);
    }

    private Invocation invoke(ProcessorFile file, long key, byte[] arguments) {
        return sessions.make(it -> new Calls.Invoke(invocation(it.number(file), key, arguments), file)).invocation();
    }

    /** Makes a call that may make the entry of a key. */
    private <T> T making(long key, Supplier<T> call) {
        if (keys == null) {
            return call.get();
        }
        keys.making(key);
        try {
            return call.get();
        } finally {
            keys.made(key);
        }
    }

    /** Makes a call that may make the entries of keys. */
    private void makingAll(long[] all, Runnable call) {
        if (keys == null) {
            call.run();
            return;
        }
        for (long key : all) {
            keys.making(key);
        }
        try {
            call.run();
        } finally {
            for (long key : all) {
                keys.made(key);
            }
        }
    }

    /** Makes a call that removes the entries of keys if its result says so. */
    private <T> T removing(long[] all, Predicate<T> isGone, Supplier<T> call) {
        if (keys == null) {
            return call.get();
        }
        boolean gone = false;
        for (long key : all) {
            keys.removing(key);
        }
        try {
            T result = call.get();
            gone = isGone.test(result);
            return result;
        } finally {
            for (long key : all) {
                keys.removed(key, gone);
            }
        }
    }

    private Long found(long key, Long value) {
        if (keys != null && value != null) {
            keys.found(key);
        }
        return value;
    }

    private Object run(BuiltIn processor, long key, byte[] arguments) {
        return invoke(processor.file(), key, arguments).result();
    }

    private boolean isTrue(BuiltIn processor, long key, byte[] arguments) {
        return Integer.valueOf(1).equals(run(processor, key, arguments));
    }

    @Override public Long get(long key, long accessed) {
        return found(key, (Long) call(new Wire.Out(13).onKey(Wire.GET, key), Wire.VALUE, "get"));
    }

    @Override public boolean contains(long key) {
        return (Boolean) call(new Wire.Out(13).onKey(Wire.CONTAINS, key), Wire.FLAG, "containsKey");
    }

    @Override public Mutation set(long key, long value, When when, Durations durations, boolean asksBefore) {
        return making(key, () -> set(key, value, when, asksBefore));
    }

    private Mutation set(long key, long value, When when, boolean asksBefore) {
        if (when == When.ABSENT) {
            boolean done = isTrue(BuiltIn.PUT_IF_ABSENT, key, Wire.arguments(value));
            return new Mutation(done, !done, null);
        } else if (when == When.PRESENT && !asksBefore) {
            boolean done = isTrue(BuiltIn.REPLACE, key, Wire.arguments(value));
            return new Mutation(done, done, null);
        } else if (when == When.PRESENT) {
            Long before = (Long) run(BuiltIn.GET_AND_REPLACE, key, Wire.arguments(value));
            return new Mutation(before != null, before != null, before);
        } else if (asksBefore) {
            Long before = (Long) run(BuiltIn.GET_AND_PUT, key, Wire.arguments(value));
            return new Mutation(true, before != null, before);
        }
        call(new Wire.Out(21).putEntry(key, value), Wire.DONE, "put");
        return new Mutation(true, null, null);
    }

    @Override public Mutation delete(long key, boolean asksBefore) {
        return removing(new long[] {key}, change -> true, () -> deleted(key, asksBefore));
    }

    private Mutation deleted(long key, boolean asksBefore) {
        if (asksBefore) {
            Long before = (Long) run(BuiltIn.GET_AND_REMOVE, key, NONE);
            return new Mutation(before != null, before != null, before);
        }
        boolean done = (Boolean) call(new Wire.Out(13).onKey(Wire.REMOVE, key), Wire.FLAG, "remove");
        return new Mutation(done, done, null);
    }

    /**
     * Runs a built-in processor. If the value is a different one, its reply doesn't show whether there is an entry. A
     * caller that asks for it gets the entry read first, and again if it has changed until the run.
     */
    @Override public Mutation compare(long key, long old, Long next, Durations durations, boolean asksBefore) {
        while (true) {
            Long before = asksBefore ? get(key, Durations.LEAVE) : Long.valueOf(old);
            if (before == null || before != old) {
                return new Mutation(false, before != null, before);
            } else if (isSwapped(key, old, next)) {
                return new Mutation(true, true, old);
            } else if (!asksBefore) {
                return new Mutation(false, null, null);
            }
        }
    }

    private boolean isSwapped(long key, long old, Long next) {
        if (next != null) {
            return making(key, () -> isTrue(BuiltIn.REPLACE_IF, key, Wire.arguments(old, next)));
        }
        return removing(new long[] {key}, (Boolean done) -> done, () -> isTrue(BuiltIn.REMOVE_IF, key, Wire.arguments(old)));
    }

    /** Sends a request of one kind for each key, up to 1,024 in a call. */
    private void each(long[] keys, int kind, int expected, String what, Calls.Taker taker) {
        for (int from = 0; from < keys.length; from += BULK) {
            int first = from;
            int count = Math.min(BULK, keys.length - from);
            Wire.Out text = new Wire.Out(13 * count);
            for (int i = 0; i < count; i++) {
                text.onKey(kind, keys[from + i]);
            }
            sessions.make(it -> new Calls.Many(text, count, expected, what, (i, told) -> taker.take(first + i, told)))
                .answer();
        }
    }

    @Override public Long[] getAll(long[] all, long accessed) {
        Long[] found = new Long[all.length];
        each(all, Wire.GET, Wire.VALUE, "getAll", (i, value) -> found[i] = found(all[i], (Long) value));
        return found;
    }

    @Override public void setAll(long[] all, long[] values, Durations durations) {
        makingAll(all, () -> putAll(all, values));
    }

    private void putAll(long[] all, long[] values) {
        for (int from = 0; from < all.length; from += BULK) {
            int count = Math.min(BULK, all.length - from);
            Wire.Out text = new Wire.Out(21 * count);
            for (int i = from; i < from + count; i++) {
                text.putEntry(all[i], values[i]);
            }
            sessions.make(it -> new Calls.Many(text, count, Wire.DONE, "putAll", (i, told) -> { })).answer();
        }
    }

    @Override public long deleteAll(long[] all) {
        return removing(all, count -> true, () -> {
            AtomicLong count = new AtomicLong();
            each(all, Wire.REMOVE, Wire.FLAG, "removeAll", (i, was) -> count.addAndGet((Boolean) was ? 1 : 0));
            return count.get();
        });
    }

    @Override public Invocation run(ProcessorFile file, long key, Object[] arguments, Durations durations) {
        return making(key, () -> invoke(file, key, arguments(arguments)));
    }

    @Override public void runAll(ProcessorFile file, long[] all, Object[] arguments, Durations durations,
        ObjLongConsumer<Invocation> taker) {
        makingAll(all, () -> invokeAll(file, all, arguments(arguments), taker));
    }

    private void invokeAll(ProcessorFile file, long[] all, byte[] text, ObjLongConsumer<Invocation> taker) {
        for (int from = 0; from < all.length; from += BULK) {
            long[] some = Arrays.copyOfRange(all, from, Math.min(all.length, from + BULK));
            int room = 11 + 8 * some.length + text.length;
            sessions.make(it -> new Calls.InvokeAll(new Wire.Out(room).invokeAll(it.number(file), some, text), some,
                file, taker)).answer();
        }
    }

    @Override public CompletableFuture<Invocation> runAsync(ProcessorFile file, long key, Object[] arguments,
        Durations durations) {
        byte[] text = arguments(arguments);
        return makingAsync(key, session -> new Calls.Async<>(invocation(session.number(file), key, text), file));
    }

    /** Starts a call that may make the entry of a key. */
    private <T> CompletableFuture<T> makingAsync(long key, Function<Session, Calls.Async<T>> maker) {
        if (keys == null) {
            return sessions.hand(maker);
        }
        keys.making(key);
        try {
            return sessions.hand(maker).whenComplete((done, e) -> keys.made(key));
        } catch (RuntimeException e) {
            keys.made(key);
            throw e;
        }
    }

    @Override public CompletableFuture<Long> getAsync(long key, long accessed) {
        CompletableFuture<Long> value = sessions.hand(session -> new Calls.Async<>(
            new Wire.Out(13).onKey(Wire.GET, key), Wire.VALUE, "getAsync"));
        return value.thenApply(it -> found(key, it));
    }

    @Override public CompletableFuture<Void> setAsync(long key, long value, Durations durations) {
        return makingAsync(key, session -> new Calls.Async<Void>(new Wire.Out(21).putEntry(key, value), Wire.DONE,
            "putAsync"));
    }

    @Override public void define(ProcessorFile file, long key) {
        sessions.define(file);
    }

    @Override public boolean hasDetail() {
        return false;
    }

    @Override public Invocation dryRun(ProcessorFile file, long key, Object[] arguments) {
        throw lacks("a run without its effect", "the protocol has no request for it");
    }

    /** Returns the keys that this store knows, if no other one uses the server. */
    @Override public Iterator<long[]> scan(String what) {
        if (keys == null) {
            throw lacks(what, "a front doesn't list its keys, and others put some too; a child process has it too");
        }
        return keys.pages();
    }

    @Override public void clear() {
        for (Iterator<long[]> pages = scan("clear"); pages.hasNext();) {
            deleteAll(pages.next());
        }
    }

    @Override public boolean hasExpiry() {
        return false;
    }

    @Override public AutoCloseable watch(Watcher watcher) {
        throw lacks("the events of others", "the protocol of jentry serve has none");
    }

    @Override public long sent() {
        return sessions.line().rounds();
    }

    /** Returns the number of calls that wait for their round. */
    public int waiting() {
        return sessions.line().waiting();
    }

    /**
     * Closes the stream. Waiting calls fail; the round in progress may finish. A child process ends too, and its
     * entries are lost.
     */
    @Override public void close() {
        try {
            sessions.close();
        } catch (IOException e) {
            throw new CacheException("the stream to the server can't be closed", e);
        }
    }
}
