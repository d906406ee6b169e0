package jentry.jcache.redis;

import java.io.IOException;
import java.nio.charset.StandardCharsets;
import java.util.HashSet;
import java.util.Set;
import javax.cache.CacheException;
import jentry.jcache.impl.Options;
import jentry.jcache.store.Watcher;

/**
 * Listens to Redis keyspace notifications about the keys of a cache, with a connection to each master. Events that
 * happen while a connection is lost are lost.
 */
final class KeyspaceEvents implements MasterSockets.User, AutoCloseable {
    private static final System.Logger LOG = System.getLogger("jentry.jcache");
    private static final Set<String> SETS =
        Set.of("set", "incrby", "append", "setrange", "restore", "rename_to", "copy_to");
    private static final Set<String> DELETES = Set.of("del", "rename_from", "move_from");

    private final RedisCluster cluster;
    private final Keys keys;
    private final Watcher watcher;
    private final MasterSockets sockets;

    /**
     * Connects and starts listening.
     *
     * @throws CacheException if a master isn't configured to send the events
     */
    KeyspaceEvents(RedisCluster cluster, Keys keys, Watcher watcher) {
        this.cluster = cluster;
        this.keys = keys;
        this.watcher = watcher;
        cluster.masters().forEach(this::check);
        sockets = new MasterSockets(cluster, "events", this);
        sockets.open();
    }

    /** Checks that the {@code notify-keyspace-events} setting of a master includes the events. */
    private void check(String node) {
        boolean isAll = cluster.options().events() == Options.Events.SERVER;
        String wanted = isAll ? "K$gxn" : "Kx";
        Object reply = cluster.at(node, new Resp.Commands().add("CONFIG", "GET", "notify-keyspace-events"))[0];
        if (!(reply instanceof Object[] pair) || pair.length < 2) {
            String why = reply instanceof Resp.Failure f ? f.text() : "no answer";
            LOG.log(System.Logger.Level.WARNING, "whether " + node + " sends events can't be asked (" + why
                + "); its notify-keyspace-events has to have " + wanted);
            return;
        }
        // A includes all of these but n. Redis 7.0 omits n beside A, whether it is set or not, so it isn't required
        // there.
        String has = Replies.text(pair[1]).replace("A", "A$gxn");
        StringBuilder lacks = new StringBuilder();
        wanted.chars().filter(it -> has.indexOf(it) < 0).forEach(it -> lacks.append((char) it));
        if (lacks.length() > 0) {
            throw new CacheException(node + " doesn't send the events that jentry.events asks for: its "
                + "notify-keyspace-events lacks " + lacks + " (CONFIG SET notify-keyspace-events " + wanted + ")");
        }
    }

    @Override public void subscribe(String node, RedisSocket socket) throws IOException {
        Object reply = socket.ask("PSUBSCRIBE", "__keyspace@0__:" + keys.pattern());
        if (reply instanceof Resp.Failure f) {
            throw new IOException(node + " refuses the events: " + f.text());
        }
    }

    @Override public void listen(String node, RedisSocket socket) throws IOException {
        Set<Long> fresh = new HashSet<>();
        while (true) {
            Object[] message = (Object[]) socket.in.reply();
            String channel = new String((byte[]) message[2], StandardCharsets.UTF_8);
            Long key = keys.key(channel.substring(channel.indexOf(':') + 1));
            if (key != null) {
                heard(key, Replies.text(message[3]), fresh);
            }
        }
    }

    /** Handles an event. Redis sends an event named new before the event of a SET that creates an entry. */
    private void heard(long key, String event, Set<Long> fresh) {
        if (event.equals("new")) {
            fresh.add(key);
        } else if (SETS.contains(event)) {
            call(key, fresh.remove(key) ? Watcher.Kind.CREATED : Watcher.Kind.UPDATED);
        } else if (DELETES.contains(event)) {
            call(key, Watcher.Kind.REMOVED);
        } else if (event.equals("expired")) {
            call(key, Watcher.Kind.EXPIRED);
        }
    }

    private void call(long key, Watcher.Kind kind) {
        try {
            watcher.changed(key, kind);
        } catch (RuntimeException e) {
            LOG.log(System.Logger.Level.WARNING, "the event " + kind + " of " + key + " is lost", e);
        }
    }

    @Override public void close() {
        sockets.close();
    }
}
