package jentry.jcache.jsr107.reference;

import java.net.URI;
import java.util.LinkedHashMap;
import java.util.List;
import java.util.Map;
import java.util.Objects;
import java.util.Properties;
import javax.cache.Cache;
import javax.cache.CacheException;
import javax.cache.CacheManager;
import javax.cache.configuration.CompleteConfiguration;
import javax.cache.configuration.Configuration;
import javax.cache.configuration.MutableConfiguration;
import javax.cache.spi.CachingProvider;

/** The manager of {@link ReferenceProvider}. */
final class ReferenceManager implements CacheManager {
    private final ReferenceProvider provider;
    private final URI uri;
    private final ClassLoader loader;
    private final Properties properties;
    private final Map<String, ReferenceCache<?, ?>> caches = new LinkedHashMap<>();
    private boolean closed;

    ReferenceManager(ReferenceProvider provider, URI uri, ClassLoader loader, Properties properties) {
        this.provider = provider;
        this.uri = uri;
        this.loader = loader;
        this.properties = properties;
    }

    private void open() {
        if (closed) {
            throw new IllegalStateException("the manager is closed");
        }
    }

    @Override public synchronized <K, V, C extends Configuration<K, V>> Cache<K, V> createCache(String name, C configuration) {
        open();
        Objects.requireNonNull(name);
        Objects.requireNonNull(configuration);
        if (caches.containsKey(name)) {
            throw new CacheException("there is a cache of that name");
        } else if (!configuration.isStoreByValue()) {
            throw new UnsupportedOperationException("store by reference");
        }
        MutableConfiguration<K, V> own = configuration instanceof CompleteConfiguration
            ? new MutableConfiguration<>((CompleteConfiguration<K, V>) configuration)
            : new MutableConfiguration<K, V>().setTypes(configuration.getKeyType(), configuration.getValueType());
        if (own.isReadThrough() && own.getCacheLoaderFactory() == null || own.isWriteThrough() && own.getCacheWriterFactory() == null) {
            throw new IllegalArgumentException("a loader or a writer is missing");
        }
        ReferenceCache<K, V> cache = new ReferenceCache<>(name, this, own);
        caches.put(name, cache);
        return cache;
    }

    private synchronized ReferenceCache<?, ?> find(String name) {
        open();
        return caches.get(Objects.requireNonNull(name));
    }

    @SuppressWarnings("unchecked")
    @Override public <K, V> Cache<K, V> getCache(String name, Class<K> key, Class<V> value) {
        open();
        Objects.requireNonNull(key);
        Objects.requireNonNull(value);
        ReferenceCache<?, ?> cache = find(name);
        if (cache == null) {
            return null;
        }
        Configuration<?, ?> of = cache.configuration();
        if (of.getKeyType() != key || of.getValueType() != value) {
            throw new ClassCastException("the cache has other types");
        }
        return (Cache<K, V>) cache;
    }

    @SuppressWarnings("unchecked")
    @Override public <K, V> Cache<K, V> getCache(String name) {
        return (Cache<K, V>) find(name);
    }

    @Override public synchronized Iterable<String> getCacheNames() {
        open();
        return List.copyOf(caches.keySet());
    }

    @Override public void destroyCache(String name) {
        ReferenceCache<?, ?> cache = find(name);
        if (cache != null) {
            cache.close();
        }
    }

    private ReferenceCache<?, ?> existing(String name) {
        ReferenceCache<?, ?> cache = find(name);
        if (cache == null) {
            throw new CacheException("there is no such cache");
        }
        return cache;
    }

    @Override public void enableManagement(String name, boolean enabled) {
        existing(name).enableManagement(enabled);
    }

    @Override public void enableStatistics(String name, boolean enabled) {
        existing(name).enableStatistics(enabled);
    }

    synchronized void forget(ReferenceCache<?, ?> cache) {
        caches.values().remove(cache);
    }

    @Override public CachingProvider getCachingProvider() {
        return provider;
    }

    @Override public URI getURI() {
        return uri;
    }

    @Override public ClassLoader getClassLoader() {
        return loader;
    }

    @Override public Properties getProperties() {
        return properties;
    }

    @Override public void close() {
        if (!closed) {
            List.copyOf(caches.values()).forEach(Cache::close);
            closed = true;
            provider.forget(this);
        }
    }

    @Override public boolean isClosed() {
        return closed;
    }

    @Override public <T> T unwrap(Class<T> type) {
        if (type.isInstance(this)) {
            return type.cast(this);
        }
        throw new IllegalArgumentException(type.getName());
    }
}
