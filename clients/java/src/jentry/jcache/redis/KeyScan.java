package jentry.jcache.redis;

import java.util.Arrays;
import java.util.Iterator;
import java.util.NoSuchElementException;
import java.util.Objects;

/** Iterates over the keys of a cache with SCAN at each master. It scans the whole database, including other caches. */
final class KeyScan implements Iterator<long[]> {
    private static final int PAGE = 500;
    private static final String BEGIN = "0";

    private final RedisCluster cluster;
    private final Keys keys;
    private final Iterator<String> masters;
    private String node;
    private String cursor = BEGIN;

    KeyScan(RedisCluster cluster, Keys keys) {
        this.cluster = cluster;
        this.keys = keys;
        masters = cluster.masters().iterator();
        node = masters.next();
    }

    @Override public boolean hasNext() {
        return node != null;
    }

    @Override public long[] next() {
        if (node == null) {
            throw new NoSuchElementException();
        }
        Object[] reply = (Object[]) Replies.checked(cluster.read(node, new Resp.Commands()
            .add("SCAN", cursor, "MATCH", keys.pattern(), "COUNT", PAGE, "TYPE", "string"))[0]);
        cursor = Replies.text(reply[0]);
        if (cursor.equals(BEGIN)) {
            node = masters.hasNext() ? masters.next() : null;
        }
        return Arrays.stream((Object[]) reply[1]).map(name -> keys.key((byte[]) name)).filter(Objects::nonNull)
            .mapToLong(key -> key).distinct().toArray();
    }
}
