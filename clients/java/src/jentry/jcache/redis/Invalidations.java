package jentry.jcache.redis;

import java.io.IOException;
import java.util.Map;
import java.util.concurrent.ConcurrentHashMap;
import java.util.concurrent.TimeUnit;
import jentry.jcache.impl.Watch;

/**
 * Hears from each master which keys of a cache were changed, by the broadcasting mode of Redis's client-side caching.
 *
 * <p>The reply to a PING comes behind the messages about all changes before the PING. So a value that is still kept was
 * the server's when the last PING with a reply was sent, or later. Values are returned for two seconds after that.
 */
final class Invalidations implements MasterSockets.User, Watch.Watched, AutoCloseable {
    /** How long values are returned without word from the server. */
    static final long TRUST_NANOS = TimeUnit.SECONDS.toNanos(2);

    /** {@link Watch} calls after a tenth of this time. */
    private static final long WATCH_NANOS = TimeUnit.SECONDS.toNanos(2);

    // Tests set a longer time, because on a busy machine the reply to a PING can take more than two seconds.
    private static volatile long trustNanos = TRUST_NANOS;

    private final Keys keys;
    private final String prefix;
    private final NearValues near;
    private final Map<String, Link> links = new ConcurrentHashMap<>();
    private final MasterSockets sockets;

    /** A connection to a master. */
    private static final class Link implements NearValues.Source {
        private final RedisSocket socket;
        private volatile boolean isOpen = true;
        private volatile long confirmed;
        private volatile long pinged;
        private volatile boolean isOut;

        Link(RedisSocket socket, long now) {
            this.socket = socket;
            confirmed = now;
        }

        @Override public boolean isTrusted(long now) {
            return isOpen && now - confirmed < trustNanos;
        }

        private void confirm() {
            confirmed = pinged;
            isOut = false;
        }
    }

    /**
     * Connects and starts listening.
     *
     * @throws javax.cache.CacheException if a master isn't reachable or has no client-side caching
     */
    Invalidations(RedisCluster cluster, String prefix, NearValues near) {
        keys = new Keys(prefix);
        this.prefix = prefix;
        this.near = near;
        sockets = new MasterSockets(cluster, "invalidations", this);
        sockets.open();
        Watch.add(this);
    }

    /** Sets how long values are returned without word from the server, in nanoseconds. */
    static void trust(long nanos) {
        trustNanos = nanos;
    }

    /** Returns the source of the messages of a node, or null if values that are read there can't be kept now. */
    NearValues.Source of(String node) {
        Link link = links.get(node);
        return link != null && link.isTrusted(System.nanoTime()) ? link : null;
    }

    @Override public void subscribe(String node, RedisSocket socket) throws IOException {
        long now = System.nanoTime();
        check(node, socket.ask("HELLO", 3));
        check(node, socket.ask("CLIENT", "TRACKING", "ON", "BCAST", "PREFIX", prefix));
        links.put(node, new Link(socket, now));
    }

    private static void check(String node, Object reply) throws IOException {
        if (reply instanceof Resp.Failure f) {
            throw new IOException(node + " has no client-side caching for jentry.near: " + f.text());
        }
    }

    @Override public void listen(String node, RedisSocket socket) throws IOException {
        Link link = links.get(node);
        while (true) {
            Object reply = socket.in.reply();
            if (reply instanceof Resp.Push push) {
                heard(push.parts());
            } else {
                check(node, reply);
                link.confirm();
            }
        }
    }

    /** Handles a message about changed keys, or about all keys if the database was emptied. */
    private void heard(Object[] parts) {
        if (!Replies.text(parts[0]).equals("invalidate")) {
            return;
        } else if (parts[1] == null) {
            near.clear();
            return;
        }
        for (Object name : (Object[]) parts[1]) {
            Long key = keys.key((byte[]) name);
            if (key != null) {
                near.changed(key);
            }
        }
    }

    @Override public void ended(String node, RedisSocket socket) {
        Link link = links.get(node);
        if (link != null && link.socket == socket) {
            link.isOpen = false;
            links.remove(node, link);
            near.lost(link);
        }
    }

    /** Sends a PING on each connection that isn't waiting for a reply to one, and ends those that wait for too long. */
    @Override public void watch(long now) {
        links.values().forEach(link -> {
            if (!link.isOut) {
                link.pinged = System.nanoTime();
                link.isOut = true;
                try {
                    link.socket.send("PING");
                } catch (IOException e) {
                    link.socket.close();
                }
            } else if (now - link.pinged > trustNanos) {
                link.socket.close();
            }
        });
    }

    @Override public long timeoutNanos() {
        return WATCH_NANOS;
    }

    @Override public void close() {
        Watch.remove(this);
        sockets.close();
    }
}
