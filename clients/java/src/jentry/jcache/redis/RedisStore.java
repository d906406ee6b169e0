package jentry.jcache.redis;

import java.util.ArrayList;
import java.util.Arrays;
import java.util.Iterator;
import java.util.List;
import java.util.Map;
import java.util.Set;
import java.util.concurrent.CompletableFuture;
import java.util.concurrent.ConcurrentHashMap;
import java.util.concurrent.atomic.AtomicLong;
import java.util.function.Function;
import java.util.function.IntConsumer;
import java.util.function.ObjLongConsumer;
import java.util.function.Supplier;
import java.util.stream.LongStream;
import javax.cache.CacheException;
import jentry.jcache.CallNotSentException;
import jentry.jcache.impl.BuiltIn;
import jentry.jcache.impl.ProcessorFile;
import jentry.jcache.store.Durations;
import jentry.jcache.store.Invocation;
import jentry.jcache.store.Mutation;
import jentry.jcache.store.Store;
import jentry.jcache.store.Watcher;

/**
 * The entries of a cache in Redis: the entry of a key is the string at PREFIX:KEY, in decimal digits. Each method on
 * one key is one Redis command, or two between MULTI and EXEC; times to live run by the server's clock.
 */
final class RedisStore implements Store {
    /** The time left of an entry that doesn't expire, as PTTL replies it. */
    static final long FOREVER = -1;

    private final RedisCluster cluster;
    private final Keys keys;
    private final Map<String, Set<ProcessorFile>> defined = new ConcurrentHashMap<>();

    /**
     * Creates a store.
     *
     * @throws CacheException if a master doesn't have the module
     */
    RedisStore(RedisCluster cluster, String prefix) {
        this.cluster = cluster;
        keys = new Keys(prefix);
        cluster.masters().forEach(this::findModule);
    }

    /** Checks that a node has the module. A server that denies the client COMMAND is assumed to have it. */
    private void findModule(String node) {
        Object reply = cluster.at(node, new Resp.Commands().add("COMMAND", "INFO", "JENTRY.APPLY"))[0];
        if (reply instanceof Object[] commands && (commands.length == 0 || commands[0] == null)) {
            throw new CacheException("Redis at " + node + " has no command JENTRY.APPLY: load the module there "
                + "(redis-server --loadmodule PATH/libjentry.so)");
        }
    }

    private Object one(long key, boolean isRead, Object... words) {
        return Replies.checked(cluster.make(keys.slot(key), new Resp.Commands().add(words), isRead).replies()[0]);
    }

    private static Object[] reading(String name, long accessed) {
        if (accessed == Durations.LEAVE) {
            return new Object[] {"GET", name};
        } else if (accessed == Durations.ZERO) {
            return new Object[] {"GETDEL", name};
        } else if (accessed == Durations.ETERNAL) {
            return new Object[] {"GETEX", name, "PERSIST"};
        }
        return new Object[] {"GETEX", name, "PX", accessed};
    }

    @Override public Long get(long key, long accessed) {
        return Replies.value(one(key, accessed != Durations.ZERO, reading(keys.name(key), accessed)));
    }

    /**
     * A value and for how long its entry is there.
     *
     * @param value the value, or null
     * @param millis the milliseconds that the entry has left, or {@link #FOREVER}
     */
    record Timed(Long value, long millis) { }

    /** Returns the node of a key. */
    String node(long key) {
        return cluster.node(keys.slot(key));
    }

    /**
     * Reads a value and its time at a node. Another client may change the entry between the two, after the value was
     * read.
     *
     * @return what was read, or null if the node did nothing, since it doesn't have the key's slot
     */
    Timed timed(long key, String node) {
        String name = keys.name(key);
        Object[] replies = cluster.at(node, new Resp.Commands().add("GET", name).add("PTTL", name));
        if (RedisCluster.undone(replies) != null) {
            return null;
        }
        return new Timed(Replies.value(replies[0]), (Long) Replies.checked(replies[1]));
    }

    @Override public boolean contains(long key) {
        return Long.valueOf(1).equals(one(key, true, "EXISTS", keys.name(key)));
    }

    /**
     * Returns the words of a SET. Redis has no time to live of zero, so an entry that expires at once gets one
     * millisecond.
     */
    private static Object[] setting(String name, long value, long time, Object... options) {
        List<Object> words = new ArrayList<>(List.of("SET", name, value));
        words.addAll(List.of(options));
        if (time == Durations.LEAVE) {
            words.add("KEEPTTL");
        } else if (time != Durations.ETERNAL) {
            words.addAll(List.of("PX", Math.max(1, time)));
        }
        return words.toArray();
    }

    /** Returns whether a single SET is right both for existing entries and for new ones. */
    private static boolean isUniform(Durations times) {
        return times.created() != Durations.ZERO && (times.created() == times.updated()
            || times.created() == Durations.ETERNAL && times.updated() == Durations.LEAVE);
    }

    @Override public Mutation set(long key, long value, When when, Durations durations, boolean asksBefore) {
        String name = keys.name(key);
        if (when == When.ABSENT) {
            if (durations.created() == Durations.ZERO) {
                boolean existed = contains(key);
                return new Mutation(!existed, existed, null);
            }
            boolean done = one(key, false, setting(name, value, durations.created(), "NX")) != null;
            return new Mutation(done, !done, null);
        } else if (when == When.PRESENT && !asksBefore) {
            boolean done = one(key, false, setting(name, value, durations.updated(), "XX")) != null;
            return new Mutation(done, done, null);
        } else if (when == When.PRESENT) {
            Long before = Replies.value(one(key, false, setting(name, value, durations.updated(), "XX", "GET")));
            return new Mutation(before != null, before != null, before);
        } else if (!isUniform(durations)) {
            Long before = setInTwo(key, value, durations);
            return new Mutation(true, before != null, before);
        } else if (!asksBefore) {
            one(key, false, setting(name, value, durations.updated()));
            return new Mutation(true, null, null);
        }
        Long before = Replies.value(one(key, false, setting(name, value, durations.updated(), "GET")));
        return new Mutation(true, before != null, before);
    }

    /**
     * Sets a value by two SETs: the first acts if there is an entry, the second if there is none. Returns the value
     * before.
     */
    private Long setInTwo(long key, long value, Durations durations) {
        String name = keys.name(key);
        Resp.Commands commands = new Resp.Commands().add("MULTI")
            .add(setting(name, value, durations.updated(), "XX", "GET"));
        if (durations.created() != Durations.ZERO) {
            commands.add(setting(name, value, durations.created(), "NX"));
        }
        Object[] replies = Replies.checked(cluster.make(keys.slot(key), commands.add("EXEC"), false).replies());
        return Replies.value(Replies.checked((Object[]) replies[replies.length - 1])[0]);
    }

    @Override public Mutation delete(long key, boolean asksBefore) {
        if (!asksBefore) {
            boolean done = Long.valueOf(1).equals(one(key, false, "DEL", keys.name(key)));
            return new Mutation(done, done, null);
        }
        Long before = Replies.value(one(key, false, "GETDEL", keys.name(key)));
        return new Mutation(before != null, before != null, before);
    }

    private RedisBulk bulk(long[] all, boolean isRead, RedisBulk.Maker maker, RedisBulk.Taker taker,
        IntConsumer single) {
        return new RedisBulk(cluster, LongStream.of(all).mapToInt(keys::slot).toArray(), isRead, maker, taker, single);
    }

    private Object[] named(String command, long[] all, List<Integer> places) {
        Object[] words = new Object[1 + places.size()];
        words[0] = command;
        Arrays.setAll(words, i -> i == 0 ? command : keys.name(all[places.get(i - 1)]));
        return words;
    }

    @Override public Long[] getAll(long[] all, long accessed) {
        Long[] found = new Long[all.length];
        boolean isPlain = accessed == Durations.LEAVE;
        bulk(all, accessed != Durations.ZERO, (places, commands) -> {
            if (isPlain) {
                commands.add(named("MGET", all, places));
            } else {
                places.forEach(i -> commands.add(reading(keys.name(all[i]), accessed)));
            }
        }, (places, replies) -> {
            Object[] values = isPlain ? (Object[]) Replies.checked(replies[0]) : replies;
            for (int i = 0; i < values.length; i++) {
                found[places.get(i)] = Replies.value(values[i]);
            }
        }, i -> found[i] = get(all[i], accessed)).run();
        return found;
    }

    @Override public void setAll(long[] all, long[] values, Durations durations) {
        bulk(all, false, (places, commands) -> {
            boolean isEternal = durations.created() == Durations.ETERNAL && isUniform(durations);
            if (isEternal) {
                List<Object> words = new ArrayList<>(List.of("MSET"));
                places.forEach(i -> words.addAll(List.of(keys.name(all[i]), values[i])));
                commands.add(words.toArray());
            } else if (isUniform(durations)) {
                places.forEach(i -> commands.add(setting(keys.name(all[i]), values[i], durations.updated())));
            } else {
                addInTwo(places, commands, all, values, durations);
            }
        }, (places, replies) -> {
            Object last = Replies.checked(replies)[replies.length - 1];
            if (last instanceof Object[] ofExec) {
                Replies.checked(ofExec);
            }
        }, i -> set(all[i], values[i], When.ALWAYS, durations, false)).run();
    }

    private void addInTwo(List<Integer> places, Resp.Commands commands, long[] all, long[] values,
        Durations durations) {
        commands.add("MULTI");
        places.forEach(i -> {
            commands.add(setting(keys.name(all[i]), values[i], durations.updated(), "XX"));
            if (durations.created() != Durations.ZERO) {
                commands.add(setting(keys.name(all[i]), values[i], durations.created(), "NX"));
            }
        });
        commands.add("EXEC");
    }

    @Override public long deleteAll(long[] all) {
        AtomicLong count = new AtomicLong();
        bulk(all, false, (places, commands) -> commands.add(named("UNLINK", all, places)),
            (places, replies) -> count.addAndGet((Long) Replies.checked(replies[0])),
            i -> count.addAndGet(delete(all[i], false).done() ? 1 : 0)).run();
        return count.get();
    }

    /** Runs a built-in processor, which returns 1 if it changed the entry and else 0. */
    @Override public Mutation compare(long key, long old, Long next, Durations durations, boolean asksBefore) {
        BuiltIn by = next == null ? BuiltIn.REMOVE_IF : BuiltIn.REPLACE_IF;
        Object[] arguments = next == null ? new Object[] {old} : new Object[] {old, next};
        Invocation done = run(by.file(), key, arguments, durations);
        boolean isDone = Integer.valueOf(1).equals(done.result());
        return new Mutation(isDone, done.before() != null, done.before());
    }

    private Object[] applying(ProcessorFile file, String name, Object[] arguments, Durations times, String mode) {
        List<Object> words = new ArrayList<>(List.of("JENTRY.APPLY", times.created(), times.updated(), times.accessed(),
            mode, file.id(), name));
        for (Object it : arguments) {
            words.add(it == null ? "null" : it instanceof Integer ? it + "i" : it);
        }
        return words.toArray();
    }

    private void define(String node, ProcessorFile file) {
        Object[] replies = cluster.at(node, new Resp.Commands().add("JENTRY.DEFINE", file.bytes()));
        Replies.defined(replies[0], file);
        defined.computeIfAbsent(node, it -> ConcurrentHashMap.newKeySet()).add(file);
    }

    /** Defines a class at a node that didn't get it from this store yet. The node may have lost it since. */
    private void defineOnce(String node, ProcessorFile file) {
        if (!defined.getOrDefault(node, Set.of()).contains(file)) {
            define(node, file);
        }
    }

    @Override public void define(ProcessorFile file, long key) {
        defineOnce(cluster.node(keys.slot(key)), file);
    }

    private static boolean isUndefined(Object reply) {
        return reply instanceof Resp.Failure f && f.is("NOCLASS");
    }

    /** Runs a processor. If the node doesn't have the class it did nothing: it gets the class, then the call again. */
    private Invocation apply(ProcessorFile file, long key, Object[] words) {
        Resp.Commands commands = new Resp.Commands().add(words);
        RedisCluster.Answer answer = cluster.make(keys.slot(key), commands, false);
        for (int tries = 0; isUndefined(answer.replies()[0]) && tries < 2; tries++) {
            define(answer.node(), file);
            answer = cluster.make(keys.slot(key), commands, false);
        }
        return Replies.invocation(answer.replies()[0], file);
    }

    @Override public Invocation run(ProcessorFile file, long key, Object[] arguments, Durations durations) {
        return apply(file, key, applying(file, keys.name(key), arguments, durations, "do"));
    }

    @Override public boolean hasDetail() {
        return true;
    }

    @Override public Invocation dryRun(ProcessorFile file, long key, Object[] arguments) {
        return apply(file, key, applying(file, keys.name(key), arguments, Durations.NONE, "dry"));
    }

    @Override public void runAll(ProcessorFile file, long[] all, Object[] arguments, Durations durations,
        ObjLongConsumer<Invocation> taker) {
        if (all.length == 0) {
            return;
        }
        cluster.masters().forEach(node -> defineOnce(node, file));
        bulk(all, false, (places, commands) -> places.forEach(i ->
            commands.add(applying(file, keys.name(all[i]), arguments, durations, "do"))),
            (places, replies) -> {
                for (int i = 0; i < replies.length; i++) {
                    long key = all[places.get(i)];
                    taker.accept(isUndefined(replies[i]) ? run(file, key, arguments, durations)
                        : Replies.invocation(replies[i], file), key);
                }
            }, i -> taker.accept(run(file, all[i], arguments, durations), all[i])).run();
    }

    @Override public CompletableFuture<Invocation> runAsync(ProcessorFile file, long key, Object[] arguments,
        Durations durations) {
        Object[] words = applying(file, keys.name(key), arguments, durations, "do");
        defineOnce(cluster.node(keys.slot(key)), file);
        return submit(key, words, reply -> Replies.invocation(reply, file), () -> apply(file, key, words));
    }

    @Override public CompletableFuture<Long> getAsync(long key, long accessed) {
        return submit(key, reading(keys.name(key), accessed), Replies::value, () -> get(key, accessed));
    }

    @Override public CompletableFuture<Void> setAsync(long key, long value, Durations durations) {
        if (!isUniform(durations)) {
            return CompletableFuture.runAsync(() -> set(key, value, When.ALWAYS, durations, false));
        }
        return submit(key, setting(keys.name(key), value, durations.updated()), reply -> {
            Replies.checked(reply);
            return null;
        }, () -> {
            set(key, value, When.ALWAYS, durations, false);
            return null;
        });
    }

    /**
     * Starts a call that no thread waits for.
     *
     * @param again makes the call once more after a node did nothing of it
     */
    private <T> CompletableFuture<T> submit(long key, Object[] words, Function<Object, T> reader, Supplier<T> again) {
        CompletableFuture<T> result = new CompletableFuture<>();
        try {
            cluster.submit(keys.slot(key), new Resp.Commands().add(words), result.defaultExecutor(),
                call -> complete(result, () -> answered(call, reader, again)));
        } catch (CallNotSentException e) {
            result.defaultExecutor().execute(() -> complete(result, again));
        }
        return result;
    }

    private static <T> void complete(CompletableFuture<T> result, Supplier<T> work) {
        try {
            result.complete(work.get());
        } catch (RuntimeException e) {
            result.completeExceptionally(e);
        }
    }

    /** Returns the outcome of a call that no thread waited for; a call that the node didn't execute is repeated. */
    private static <T> T answered(RedisConnection.Call call, Function<Object, T> reader, Supplier<T> again) {
        Object reply;
        try {
            reply = call.await()[0];
        } catch (CallNotSentException e) {
            return again.get();
        }
        return isUndefined(reply) || RedisCluster.undone(reply) != null ? again.get() : reader.apply(reply);
    }

    @Override public Iterator<long[]> scan(String what) {
        return new KeyScan(cluster, keys);
    }

    @Override public void clear() {
        for (Iterator<long[]> pages = scan("clear"); pages.hasNext();) {
            long[] page = pages.next();
            if (page.length > 0) {
                deleteAll(page);
            }
        }
    }

    @Override public boolean hasExpiry() {
        return true;
    }

    @Override public AutoCloseable watch(Watcher watcher) {
        return new KeyspaceEvents(cluster, keys, watcher);
    }

    @Override public long sent() {
        return cluster.sent();
    }

    /** Does nothing: all caches of the manager share the connections. */
    @Override public void close() { }
}
