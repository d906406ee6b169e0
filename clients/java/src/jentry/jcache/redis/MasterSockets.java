package jentry.jcache.redis;

import java.io.IOException;
import java.util.HashMap;
import java.util.HashSet;
import java.util.Map;
import java.util.Set;
import javax.cache.CacheException;

/**
 * A connection to each master for what a server sends by itself. A thread reads each connection. Another one connects
 * to masters that have no connection, and disconnects from nodes that are no longer masters.
 */
final class MasterSockets implements AutoCloseable {
    private static final long PAUSE_MILLIS = 500;
    private static final int SUBSCRIBE_MILLIS = 3_000;
    private static final System.Logger LOG = System.getLogger("jentry.jcache");

    private final RedisCluster cluster;
    private final String name;
    private final User user;
    private final Map<String, RedisSocket> sockets = new HashMap<>();
    private boolean closed;

    /** What uses the connections. */
    interface User {
        /** Asks for what the server shall send, on a new connection. */
        void subscribe(String node, RedisSocket socket) throws IOException;

        /** Handles what the server sends, until the connection ends. */
        void listen(String node, RedisSocket socket) throws IOException;

        /** Called after a connection has ended, whoever has closed it. */
        default void ended(String node, RedisSocket socket) { }
    }

    /** @param name what is received, for messages and the names of threads */
    MasterSockets(RedisCluster cluster, String name, User user) {
        this.cluster = cluster;
        this.name = name;
        this.user = user;
    }

    /**
     * Connects to all masters and starts the threads.
     *
     * @throws CacheException if a master isn't reachable or refuses
     */
    void open() {
        try {
            for (String node : cluster.masters()) {
                connect(node);
            }
        } catch (IOException e) {
            close();
            throw new CacheException("the " + name + " of Redis can't be had: " + e.getMessage(), e);
        } catch (RuntimeException e) {
            close();
            throw e;
        }
        start("jentry-" + name, this::keep);
    }

    private static void start(String name, Runnable work) {
        Thread thread = new Thread(work, name);
        thread.setDaemon(true);
        thread.start();
    }

    private void connect(String node) throws IOException {
        RedisSocket socket = new RedisSocket(node, cluster.options());
        synchronized (sockets) {
            if (closed) {
                socket.close();
                return;
            }
            sockets.put(node, socket);
        }
        try {
            socket.socket.setSoTimeout(SUBSCRIBE_MILLIS);
            user.subscribe(node, socket);
            socket.socket.setSoTimeout(0);
        } catch (IOException | RuntimeException e) {
            end(node, socket);
            throw e;
        }
        start("jentry-" + name + "-" + node, () -> listen(node, socket));
    }

    private void listen(String node, RedisSocket socket) {
        try {
            user.listen(node, socket);
        } catch (IOException | RuntimeException e) {
            if (!end(node, socket)) {
                LOG.log(System.Logger.Level.WARNING,
                    "the " + name + " of " + node + " are lost until it is connected again", e);
            }
        }
    }

    /** Closes and forgets a connection. Returns whether all connections are closed. */
    private boolean end(String node, RedisSocket socket) {
        boolean isOver;
        synchronized (sockets) {
            isOver = closed;
            sockets.remove(node, socket);
            sockets.notifyAll();
        }
        socket.close();
        user.ended(node, socket);
        return isOver;
    }

    private void keep() {
        while (!isClosedAfterPause()) {
            try {
                boolean isWhole;
                synchronized (sockets) {
                    isWhole = sockets.keySet().equals(cluster.masters());
                }
                if (!isWhole) {
                    mend(cluster.refreshedMasters());
                }
            } catch (IOException | RuntimeException e) {
                LOG.log(System.Logger.Level.DEBUG, "the " + name + " can't be had yet", e);
            }
        }
    }

    private boolean isClosedAfterPause() {
        synchronized (sockets) {
            try {
                if (!closed) {
                    sockets.wait(PAUSE_MILLIS);
                }
            } catch (InterruptedException e) {
                // Nobody has a reason to interrupt this thread, so it continues.
            }
            return closed;
        }
    }

    private void mend(Set<String> masters) throws IOException {
        Set<String> missing = new HashSet<>(masters);
        Set<RedisSocket> left = new HashSet<>();
        synchronized (sockets) {
            missing.removeAll(sockets.keySet());
            sockets.forEach((node, socket) -> {
                if (!masters.contains(node)) {
                    left.add(socket);
                }
            });
        }
        left.forEach(RedisSocket::close);
        for (String node : missing) {
            connect(node);
        }
    }

    @Override public void close() {
        Set<RedisSocket> all;
        synchronized (sockets) {
            closed = true;
            all = new HashSet<>(sockets.values());
            sockets.notifyAll();
        }
        all.forEach(RedisSocket::close);
    }
}
