package jentry.jcache.redis;

import java.io.IOException;
import java.nio.charset.StandardCharsets;
import java.util.Arrays;
import java.util.List;
import java.util.Map;
import java.util.Set;
import java.util.TreeSet;
import java.util.concurrent.ConcurrentHashMap;
import java.util.concurrent.Executor;
import java.util.concurrent.RejectedExecutionException;
import java.util.concurrent.atomic.AtomicReferenceArray;
import java.util.concurrent.atomic.LongAdder;
import java.util.concurrent.locks.LockSupport;
import java.util.function.Consumer;
import javax.cache.CacheException;
import jentry.jcache.CallNotSentException;
import jentry.jcache.CallOutcomeUnknownException;
import jentry.jcache.impl.Options;

/** One node, or the masters of a cluster: the node of each slot, a connection to each node, and redirections. */
final class RedisCluster {
    static final int SLOTS = 16_384;
    private static final int MOST_TRIES = 16;

    /**
     * While a slot moves, two nodes may redirect to each other until the cluster bus has updated both. So after a few
     * redirections a call waits before each further one, for more than a second in total.
     */
    private static final int MOST_REDIRECTIONS = 64;
    private static final int QUICK_REDIRECTIONS = 4;
    private static final int MOST_RESENDS = 2;
    private static final long PAUSE_NANOS = 20_000_000;

    /** Errors with which a node reports that it didn't execute a command. */
    private static final Set<String> UNDONE =
        Set.of("MOVED", "ASK", "TRYAGAIN", "CLUSTERDOWN", "LOADING", "READONLY", "MASTERDOWN");

    private final Options options;
    private final Map<String, RedisConnection> connections = new ConcurrentHashMap<>();
    private final AtomicReferenceArray<String> nodes = new AtomicReferenceArray<>(SLOTS);
    private final LongAdder sent = new LongAdder();
    private volatile boolean isCluster;
    private volatile boolean closed;
    private long refreshed;

    /** Connects to one of the nodes that the options name. */
    RedisCluster(Options options) {
        this.options = options;
        refreshed = System.nanoTime() - 1;
        try {
            refresh(System.nanoTime());
        } catch (RuntimeException e) {
            close();
            throw e;
        }
    }

    boolean isCluster() {
        return isCluster;
    }

    long sent() {
        return sent.sum();
    }

    /** Returns the slot of a key: CRC16 (XMODEM) of the key, or of the part in its first braces if that isn't empty. */
    static int slot(String key) {
        byte[] text = key.getBytes(StandardCharsets.UTF_8);
        int from = 0, to = text.length;
        int open = indexOf(text, '{', 0);
        int close = open < 0 ? -1 : indexOf(text, '}', open + 1);
        if (close > open + 1) {
            from = open + 1;
            to = close;
        }
        int crc = 0;
        for (int i = from; i < to; i++) {
            crc ^= (text[i] & 0xFF) << 8;
            for (int bit = 0; bit < 8; bit++) {
                crc = (crc & 0x8000) != 0 ? crc << 1 ^ 0x1021 : crc << 1;
            }
            crc &= 0xFFFF;
        }
        return crc % SLOTS;
    }

    private static int indexOf(byte[] text, char c, int from) {
        for (int i = from; i < text.length; i++) {
            if (text[i] == c) {
                return i;
            }
        }
        return -1;
    }

    private RedisConnection connection(String node) {
        RedisConnection known = connections.get(node);
        if (known != null && !known.isBroken()) {
            return known;
        }
        synchronized (connections) {
            known = connections.get(node);
            if (known != null && !known.isBroken()) {
                return known;
            } else if (closed) {
                throw isClosed();
            }
            try {
                RedisConnection made = new RedisConnection(node, options);
                connections.put(node, made);
                return made;
            } catch (IOException e) {
                throw new CallNotSentException("there is no connection to " + node + " (" + e.getMessage() + ")", e);
            }
        }
    }

    /**
     * Asks one of the nodes for the slot map.
     *
     * @param since the time when the map became doubtful; a newer map is kept
     */
    private synchronized void refresh(long since) {
        if (refreshed - since > 0) {
            return;
        }
        TreeSet<String> all = new TreeSet<>(connections.keySet());
        all.addAll(options.nodes());
        CacheException last = null;
        for (String node : all) {
            try {
                learn(node, at(node, new Resp.Commands().add("CLUSTER", "SLOTS"))[0]);
                refreshed = System.nanoTime();
                return;
            } catch (CacheException e) {
                last = e;
            }
        }
        throw last;
    }

    private void learn(String node, Object reply) {
        if (reply instanceof Resp.Failure f) {
            if (!f.text().contains("cluster support disabled")) {
                throw new CacheException(node + " doesn't say which slots it has: " + f.text());
            }
            isCluster = false;
            for (int i = 0; i < SLOTS; i++) {
                nodes.set(i, node);
            }
            return;
        }
        isCluster = true;
        for (Object range : (Object[]) reply) {
            Object[] row = (Object[]) range;
            Object[] master = (Object[]) row[2];
            String host = new String((byte[]) master[0], StandardCharsets.UTF_8);
            String at = (host.isEmpty() ? host(node) : host) + ":" + master[1];
            for (int i = Math.toIntExact((Long) row[0]); i <= (Long) row[1]; i++) {
                nodes.set(i, at);
            }
        }
    }

    private static String host(String node) {
        return node.substring(0, node.lastIndexOf(':'));
    }

    /** Reads the slot map again and returns the masters. */
    Set<String> refreshedMasters() {
        refresh(System.nanoTime());
        return masters();
    }

    /** Returns the masters that have slots. */
    Set<String> masters() {
        Set<String> all = new TreeSet<>();
        for (int i = 0; i < SLOTS; i++) {
            String node = nodes.get(i);
            if (node != null) {
                all.add(node);
            }
        }
        return all;
    }

    /** Returns the node of a slot. */
    String node(int slot) {
        String node = nodes.get(slot);
        if (node == null) {
            throw new CallNotSentException("no node has the slot " + slot, null);
        }
        return node;
    }

    /** Starts a call at a node. */
    RedisConnection.Call submit(String node, Resp.Commands commands) {
        RedisConnection.Call call = new RedisConnection.Call(commands);
        sent.increment();
        connection(node).submit(call);
        return call;
    }

    /**
     * Starts a call at the node of a slot, without waiting for its end.
     *
     * @throws RejectedExecutionException if the queue of waiting calls of that node is full
     */
    void submit(int slot, Resp.Commands commands, Executor executor, Consumer<RedisConnection.Call> then) {
        RedisConnection at = connection(node(slot));
        if (at.pending() >= options.queue()) {
            throw new RejectedExecutionException(options.queue() + " calls wait for the server already");
        }
        sent.increment();
        at.submit(new RedisConnection.Call(commands, executor, then));
    }

    /** Makes a call at a node and returns its replies, errors included. */
    Object[] at(String node, Resp.Commands commands) {
        try {
            return submit(node, commands).await();
        } catch (CallNotSentException e) {
            throw closed ? isClosed() : e;
        }
    }

    private IllegalStateException isClosed() {
        return new IllegalStateException("the cache manager of " + options.uri() + " is closed");
    }

    /** Makes a read like {@link #at}, and retries it once if it can't be sent or no reply comes. */
    Object[] read(String node, Resp.Commands commands) {
        try {
            return at(node, commands);
        } catch (CallNotSentException | CallOutcomeUnknownException e) {
            return at(node, commands);
        }
    }

    /** The replies, and the node that sent them. */
    record Answer(String node, Object[] replies) { }

    /**
     * Sends a command on one key, or commands on it between MULTI and EXEC, to the node of the slot. A call that had no
     * effect is retried: one that the node redirects or can't execute yet, or one that couldn't be sent. A read without
     * a reply is retried once.
     */
    Answer make(int slot, Resp.Commands commands, boolean isRead) {
        String node = node(slot);
        boolean asks = false;
        int resends = isRead ? 0 : 1;
        for (int tries = 0;; tries++) {
            long since = System.nanoTime();
            Object[] replies;
            try {
                replies = at(node, asks ? commands.asking() : commands);
            } catch (CallNotSentException e) {
                if (tries >= MOST_RESENDS) {
                    throw e;
                }
                node = nodeAnew(slot, since);
                asks = false;
                continue;
            } catch (CallOutcomeUnknownException e) {
                if (resends++ > 0) {
                    throw e;
                }
                node = nodeAnew(slot, since);
                asks = false;
                continue;
            }
            Resp.Failure undone = undone(replies);
            if (undone == null) {
                return new Answer(node, asks ? Arrays.copyOfRange(replies, 1, replies.length) : replies);
            }
            boolean isRedirected = undone.is("MOVED") || undone.is("ASK");
            if (tries >= (isRedirected ? MOST_REDIRECTIONS : MOST_TRIES)) {
                throw new CallNotSentException(node + " did nothing: " + undone.text(), null);
            }
            if (!isRedirected || tries >= QUICK_REDIRECTIONS) {
                LockSupport.parkNanos(PAUSE_NANOS);
            }
            asks = undone.is("ASK");
            node = next(slot, node, undone, since);
        }
    }

    private String nodeAnew(int slot, long since) {
        if (isCluster || options.nodes().size() > 1) {
            refresh(since);
        }
        return node(slot);
    }

    /** Returns the node to which to send a call that this node didn't execute. */
    private String next(int slot, String node, Resp.Failure undone, long since) {
        if (undone.is("MOVED") || undone.is("ASK")) {
            String[] words = undone.text().split(" ");
            String at = words[2].startsWith(":") ? host(node) + words[2] : words[2];
            if (undone.is("MOVED")) {
                nodes.set(slot, at);
            }
            return at;
        }
        return undone.is("TRYAGAIN") ? node : nodeAnew(slot, since);
    }

    /**
     * Returns the first error that says that nothing was done, or null. Inside MULTI it is the reply to the queued
     * command.
     */
    static Resp.Failure undone(Object... replies) {
        for (Object reply : replies) {
            if (reply instanceof Resp.Failure f && UNDONE.contains(f.code())) {
                return f;
            }
        }
        return null;
    }

    Options options() {
        return options;
    }

    List<RedisConnection> connections() {
        return List.copyOf(connections.values());
    }

    void close() {
        List<RedisConnection> all;
        synchronized (connections) {
            closed = true;
            all = connections();
            connections.clear();
        }
        all.forEach(RedisConnection::close);
    }
}
