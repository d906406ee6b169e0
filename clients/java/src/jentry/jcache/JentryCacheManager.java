package jentry.jcache;

import java.net.URI;
import java.util.List;
import java.util.Map;
import java.util.Objects;
import java.util.Properties;
import java.util.concurrent.ConcurrentHashMap;
import javax.cache.Cache;
import javax.cache.CacheException;
import javax.cache.CacheManager;
import javax.cache.configuration.CompleteConfiguration;
import javax.cache.configuration.Configuration;
import javax.cache.configuration.MutableConfiguration;
import javax.cache.spi.CachingProvider;
import jentry.jcache.impl.Options;
import jentry.jcache.impl.PropertiesFile;
import jentry.jcache.impl.Unwrap;
import jentry.jcache.redis.RedisStores;
import jentry.jcache.store.Store;
import jentry.jcache.store.StoreFactory;
import jentry.jcache.stream.StreamStores;

/**
 * The caches of one URI. On {@code jentry serve} each cache has its own stream: a child process, or a connection to a
 * running server. On Redis the caches share the connections.
 */
public final class JentryCacheManager implements CacheManager {
    private final JentryCachingProvider provider;
    private final URI uri;
    private final ClassLoader loader;
    private final Properties properties;
    private final Options options;
    private final StoreFactory stores;
    private final Map<String, JentryCache> caches = new ConcurrentHashMap<>();
    private volatile boolean closed;

    JentryCacheManager(JentryCachingProvider provider, URI uri, ClassLoader loader, Properties properties) {
        this.provider = provider;
        this.uri = uri;
        this.loader = loader;
        this.properties = properties;
        options = new Options(uri, properties, PropertiesFile.of(loader));
        stores = options.isRedis() ? new RedisStores(options) : new StreamStores(options);
    }

    private void open() {
        if (closed) {
            throw new IllegalStateException("the cache manager of " + uri + " is closed");
        }
    }

    /**
     * Creates a cache, and opens the connection or starts the child process that it needs.
     *
     * @throws IllegalArgumentException if the types aren't Long and Long, or read-through has no loader, or
     *     write-through has no writer
     * @throws UnsupportedOperationException if the configuration needs something that the server lacks
     * @throws CacheException if there is already a cache of that name, or the server isn't available, or it is a front
     *     on which this JVM has used another name
     */
    @SuppressWarnings("unchecked")
    @Override public synchronized <K, V, C extends Configuration<K, V>> Cache<K, V> createCache(String name,
        C configuration) {
        open();
        Objects.requireNonNull(name, "name");
        Objects.requireNonNull(configuration, "configuration");
        if (caches.containsKey(name)) {
            throw new CacheException("there is a cache " + name + " already");
        }
        if (!isLong(configuration.getKeyType()) || !isLong(configuration.getValueType())) {
            throw new IllegalArgumentException("keys and values are Long here: setTypes(Long.class, Long.class)");
        }
        MutableConfiguration<Long, Long> checked = checked((Configuration<Long, Long>) configuration);
        Store store = stores.open(name);
        try {
            JentryCache cache = new JentryCache(name, this, checked, store, options);
            caches.put(name, cache);
            return (Cache<K, V>) cache;
        } catch (RuntimeException e) {
            store.close();
            throw e;
        }
    }

    private static boolean isLong(Class<?> type) {
        return type == Long.class;
    }

    private static MutableConfiguration<Long, Long> checked(Configuration<Long, Long> wanted) {
        if (!wanted.isStoreByValue()) {
            throw new UnsupportedOperationException("store by reference: the entries are in a server");
        }
        if (!(wanted instanceof CompleteConfiguration)) {
            return new MutableConfiguration<Long, Long>().setTypes(Long.class, Long.class);
        }
        CompleteConfiguration<Long, Long> complete = (CompleteConfiguration<Long, Long>) wanted;
        if (complete.isReadThrough() && complete.getCacheLoaderFactory() == null) {
            throw new IllegalArgumentException("read-through without a loader: setCacheLoaderFactory");
        }
        if (complete.isWriteThrough() && complete.getCacheWriterFactory() == null) {
            throw new IllegalArgumentException("write-through without a writer: setCacheWriterFactory");
        }
        return new MutableConfiguration<>(complete);
    }

    @SuppressWarnings("unchecked")
    private <K, V> Cache<K, V> find(String name) {
        open();
        return (Cache<K, V>) caches.get(Objects.requireNonNull(name, "name"));
    }

    @Override public <K, V> Cache<K, V> getCache(String name, Class<K> key, Class<V> value) {
        Objects.requireNonNull(key, "key type");
        Objects.requireNonNull(value, "value type");
        Cache<K, V> cache = find(name);
        if (cache != null && (!isLong(key) || !isLong(value))) {
            throw new ClassCastException("the cache " + name + " is of Long and Long");
        }
        return cache;
    }

    @Override public <K, V> Cache<K, V> getCache(String name) {
        return find(name);
    }

    @Override public Iterable<String> getCacheNames() {
        open();
        return List.copyOf(caches.keySet());
    }

    /**
     * Closes the cache of that name, if there is one. On Redis its entries are deleted first, as JCache requires, for
     * all clients. On a front the entries stay, because it can't list its keys.
     */
    @Override public void destroyCache(String name) {
        Cache<Long, Long> cache = find(name);
        if (cache != null) {
            if (options.isRedis()) {
                cache.clear();
            }
            cache.close();
        }
    }

    void forget(JentryCache cache) {
        caches.remove(cache.getName(), cache);
    }

    private JentryCache existing(String name) {
        Cache<Long, Long> cache = find(name);
        if (cache == null) {
            throw new CacheException("there is no cache " + name);
        }
        return (JentryCache) cache;
    }

    @Override public void enableManagement(String name, boolean enabled) {
        existing(name).context().enableManagement(enabled);
    }

    @Override public void enableStatistics(String name, boolean enabled) {
        existing(name).context().enableStatistics(enabled);
    }

    @Override public CachingProvider getCachingProvider() {
        return provider;
    }

    @Override public URI getURI() {
        return uri;
    }

    @Override public ClassLoader getClassLoader() {
        return loader;
    }

    /** Returns a copy of the properties that the manager was created with. */
    @Override public Properties getProperties() {
        return (Properties) properties.clone();
    }

    @Override public synchronized void close() {
        if (!closed) {
            closed = true;
            provider.forget(this);
            try {
                List.copyOf(caches.values()).forEach(JentryCache::close);
            } finally {
                stores.close();
            }
        }
    }

    @Override public boolean isClosed() {
        return closed;
    }

    @Override public <T> T unwrap(Class<T> type) {
        return Unwrap.as(type, this, "a cache manager");
    }
}
