package jentry.jcache.jsr107;

import java.net.URI;
import java.util.ArrayList;
import java.util.List;
import java.util.Properties;
import java.util.Set;
import java.util.HashSet;
import java.util.concurrent.ThreadLocalRandom;
import java.util.function.UnaryOperator;
import javax.cache.Cache;
import javax.cache.CacheManager;
import javax.cache.Caching;
import javax.cache.configuration.MutableConfiguration;
import javax.cache.spi.CachingProvider;
import jentry.jcache.jsr107.reference.ReferenceProvider;

/** A store on which a check runs, with the managers and caches that the check has made. A check uses keys of its own, because a front keeps its entries. */
final class Subject implements AutoCloseable {
    static final String REFERENCE = "the reference", CHILD = "child process", FRONT = "front", REDIS = "Redis";
    private static final URI AT = URI.create(System.getProperty("jentry.test.uri", "jentry:default"));

    private final String store;
    private final CachingProvider provider;
    private final List<CacheManager> managers = new ArrayList<>();
    private final String prefix = "jsr" + Long.toString(ThreadLocalRandom.current().nextLong() >>> 1, 36);
    private final long base = ThreadLocalRandom.current().nextLong() >> 24 << 24;
    private int made;

    Subject(String store) {
        this.store = store;
        provider = isReference() ? new ReferenceProvider() : Caching.getCachingProvider();
    }

    /** Returns the kind of store that the tests run on. */
    static String storeUnderTest() {
        String scheme = AT.getScheme();
        return scheme.startsWith("jentry+redis") ? REDIS : scheme.equals("jentry") ? CHILD : FRONT;
    }

    String store() {
        return store;
    }

    boolean isReference() {
        return store.equals(REFERENCE);
    }

    boolean isFront() {
        return store.equals(FRONT);
    }

    CachingProvider provider() {
        return provider;
    }

    URI uri() {
        return isReference() ? provider.getDefaultURI() : AT;
    }

    /** Creates a manager with these properties: names and values alternate. It has a class loader of its own. */
    CacheManager manager(String... words) {
        Properties properties = new Properties();
        for (int i = 0; i < words.length; i += 2) {
            properties.setProperty(words[i], words[i + 1]);
        }
        CacheManager manager = provider.getCacheManager(uri(), new ClassLoader() { }, properties);
        managers.add(manager);
        return manager;
    }

    /** Returns a name that no other check uses. A front takes the name of the other tests only. */
    String name() {
        made++;
        return isFront() && made == 1 ? "test" : prefix + made;
    }

    static MutableConfiguration<Long, Long> types() {
        return new MutableConfiguration<Long, Long>().setTypes(Long.class, Long.class);
    }

    Cache<Long, Long> cache() {
        return cache(it -> it);
    }

    Cache<Long, Long> cache(UnaryOperator<MutableConfiguration<Long, Long>> with, String... properties) {
        return manager(properties).createCache(name(), with.apply(types()));
    }

    /** Returns the n-th key of this check. */
    long key(long n) {
        return base + n;
    }

    /** Returns the first keys of this check. */
    Set<Long> keys(int count) {
        Set<Long> keys = new HashSet<>();
        for (int n = 0; n < count; n++) {
            keys.add(key(n));
        }
        return keys;
    }

    @Override public void close() {
        for (CacheManager manager : managers) {
            if (!manager.isClosed()) {
                manager.getCacheNames().forEach(manager::destroyCache);
                manager.close();
            }
        }
    }
}
