package jentry.jcache;

import java.net.URI;
import java.util.HashSet;
import java.util.Properties;
import java.util.Set;
import java.util.concurrent.ThreadLocalRandom;
import javax.cache.Cache;
import javax.cache.CacheManager;
import javax.cache.Caching;
import javax.cache.configuration.MutableConfiguration;

/**
 * A cache on the real server, for one test: on its own child process, or on a connection to the front that {@code jentry.test.uri} names. The entries of a
 * front persist between tests, so each test uses its own keys.
 */
final class Server implements AutoCloseable {
    static final URI AT = URI.create(System.getProperty("jentry.test.uri", "jentry:default"));

    final CacheManager manager;
    final Cache<Long, Long> cache;
    private CacheManager second;
    private final long base = ThreadLocalRandom.current().nextLong() >> 24 << 24;

    Server() {
        this(new Properties());
    }

    Server(Properties properties) {
        manager = Caching.getCachingProvider().getCacheManager(AT, null, properties);
        cache = manager.createCache("test", types());
    }

    static MutableConfiguration<Long, Long> types() {
        return new MutableConfiguration<Long, Long>().setTypes(Long.class, Long.class);
    }

    /** Returns the n-th key of this test. */
    long key(long n) {
        return base + n;
    }

    Set<Long> keys(long from, long to) {
        Set<Long> keys = new HashSet<>();
        for (long n = from; n < to; n++) {
            keys.add(key(n));
        }
        return keys;
    }

    /** Returns the same entries on another connection if the server is shared, else the cache itself. */
    Cache<Long, Long> other() {
        if (!isShared()) {
            return cache;
        }
        second = second == null ? secondManager() : second;
        Cache<Long, Long> known = second.getCache("test", Long.class, Long.class);
        return known == null ? second.createCache("test", types()) : known;
    }

    /** Returns whether the server is a front, which has one cache and takes one name. */
    static boolean isFront() {
        return isShared() && !isRedis();
    }

    /** Returns whether other clients see the server's entries: it is a front, or Redis. */
    static boolean isShared() {
        return !AT.getScheme().equals("jentry");
    }

    /** Returns whether the server is Redis. */
    static boolean isRedis() {
        return AT.getScheme().startsWith("jentry+redis");
    }

    JentryCache own() {
        return cache.unwrap(JentryCache.class);
    }

    /** Creates another manager of the same URI, which shares no connection with the first. */
    private static CacheManager secondManager() {
        return Caching.getCachingProvider().getCacheManager(AT, new ClassLoader() { });
    }

    @Override public void close() {
        manager.close();
        if (second != null) {
            second.close();
        }
    }
}
