package jentry.jcache.redis;

import java.nio.charset.StandardCharsets;

/** The names of a cache's entries in Redis: a prefix that ends in a colon, then the key in decimal digits. */
final class Keys {
    private final String prefix;

    Keys(String prefix) {
        this.prefix = prefix;
    }

    String name(long key) {
        return prefix + key;
    }

    int slot(long key) {
        return RedisCluster.slot(name(key));
    }

    /**
     * Returns a glob that matches the names, and also those of other caches whose names begin with the same letters.
     */
    String pattern() {
        StringBuilder text = new StringBuilder();
        for (char c : prefix.toCharArray()) {
            if ("*?[]\\^-".indexOf(c) >= 0) {
                text.append('\\');
            }
            text.append(c);
        }
        return text + "*";
    }

    /** Returns the key of a name, or null if the name isn't one of this cache. */
    Long key(byte[] name) {
        return key(new String(name, StandardCharsets.UTF_8));
    }

    Long key(String name) {
        if (!name.startsWith(prefix)) {
            return null;
        }
        String text = name.substring(prefix.length());
        try {
            long key = Long.parseLong(text);
            return Long.toString(key).equals(text) ? key : null;
        } catch (NumberFormatException e) {
            return null;
        }
    }
}
