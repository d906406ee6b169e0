package jentry.jcache.jsr107.reference;

import java.util.ArrayList;
import java.util.HashMap;
import java.util.HashSet;
import java.util.Iterator;
import java.util.LinkedHashMap;
import java.util.List;
import java.util.Map;
import java.util.Objects;
import java.util.Set;
import javax.cache.Cache;
import javax.cache.CacheException;
import javax.cache.CacheManager;
import javax.cache.configuration.CacheEntryListenerConfiguration;
import javax.cache.configuration.Configuration;
import javax.cache.configuration.MutableConfiguration;
import javax.cache.integration.CompletionListener;
import javax.cache.processor.EntryProcessor;
import javax.cache.processor.EntryProcessorException;
import javax.cache.processor.EntryProcessorResult;

/** A cache in a map of this JVM, behind one lock. */
final class ReferenceCache<K, V> implements Cache<K, V> {
    private final String name;
    private final ReferenceManager manager;
    private final MutableConfiguration<K, V> configuration;
    private final Events<K, V> events = new Events<>(this);
    private final Entries<K, V> entries;
    private final Outside<K, V> outside;
    private final Counters counters = new Counters();
    private boolean closed;

    ReferenceCache(String name, ReferenceManager manager, MutableConfiguration<K, V> configuration) {
        this.name = name;
        this.manager = manager;
        this.configuration = configuration;
        entries = new Entries<>(configuration.getExpiryPolicyFactory().create(), events);
        outside = new Outside<>(configuration);
        configuration.getCacheEntryListenerConfigurations().forEach(events::add);
        enableStatistics(configuration.isStatisticsEnabled());
        enableManagement(configuration.isManagementEnabled());
    }

    MutableConfiguration<K, V> configuration() {
        return configuration;
    }

    void enableStatistics(boolean wanted) {
        configuration.setStatisticsEnabled(wanted);
        counters.isOn = wanted;
        Beans.set(this, "CacheStatistics", counters, wanted);
    }

    void enableManagement(boolean wanted) {
        configuration.setManagementEnabled(wanted);
        Beans.set(this, "CacheConfiguration", new Beans.Configured(configuration), wanted);
    }

    static void closed(Object it) {
        if (it instanceof AutoCloseable closeable) {
            try {
                closeable.close();
            } catch (Exception e) {
                throw new IllegalStateException(e);
            }
        }
    }

    private void open(Object... needed) {
        if (closed) {
            throw new IllegalStateException("the cache is closed");
        }
        for (Object it : needed) {
            Objects.requireNonNull(it);
        }
    }

    private V loaded(K key) {
        V value = outside.load(key);
        if (value != null) {
            entries.put(key, value);
        }
        return value;
    }

    @Override public synchronized V get(K key) {
        open(key);
        V value = entries.access(key);
        counters.looked(value != null);
        return value == null ? loaded(key) : value;
    }

    @Override public synchronized Map<K, V> getAll(Set<? extends K> keys) {
        open(keys);
        keys.forEach(Objects::requireNonNull);
        Map<K, V> found = new HashMap<>();
        for (K key : keys) {
            V value = entries.access(key);
            counters.looked(value != null);
            if (value != null) {
                found.put(key, value);
            }
        }
        if (outside.readsThrough) {
            Set<K> missing = new HashSet<>(keys);
            missing.removeAll(found.keySet());
            if (!missing.isEmpty()) {
                outside.loadAll(missing).forEach((key, value) -> {
                    entries.put(key, value);
                    found.put(key, value);
                });
            }
        }
        return found;
    }

    @Override public synchronized boolean containsKey(K key) {
        open(key);
        return entries.peek(key) != null;
    }

    @Override public void loadAll(Set<? extends K> keys, boolean replaces, CompletionListener listener) {
        open(keys);
        keys.forEach(Objects::requireNonNull);
        Exception failure = null;
        try {
            loadAll(new ArrayList<>(keys), replaces);
        } catch (CacheException e) {
            failure = e;
        }
        if (listener != null && failure == null) {
            listener.onCompletion();
        } else if (listener != null) {
            listener.onException(failure);
        }
    }

    private synchronized void loadAll(List<K> keys, boolean replaces) {
        keys.removeIf(it -> !replaces && entries.peek(it) != null);
        if (outside.loader != null && !keys.isEmpty()) {
            outside.loadAll(keys).forEach(entries::put);
        }
    }

    private void store(K key, V value) {
        outside.write(key, value);
        counters.put(entries.put(key, value));
    }

    @Override public synchronized void put(K key, V value) {
        open(key, value);
        store(key, value);
    }

    private V looked(K key) {
        V old = entries.peek(key);
        counters.looked(old != null);
        return old;
    }

    @Override public synchronized V getAndPut(K key, V value) {
        open(key, value);
        V old = looked(key);
        store(key, value);
        return old;
    }

    @Override public synchronized void putAll(Map<? extends K, ? extends V> map) {
        open(map);
        map.forEach((key, value) -> open(key, value));
        Outside.Written<K> written = outside.writeAll(map);
        new LinkedHashMap<K, V>(map).forEach((key, value) -> {
            if (written.keys().contains(key)) {
                counters.put(entries.put(key, value));
            }
        });
        if (written.failure() != null) {
            throw written.failure();
        }
    }

    @Override public synchronized boolean putIfAbsent(K key, V value) {
        open(key, value);
        boolean absent = looked(key) == null;
        if (absent) {
            store(key, value);
        }
        return absent;
    }

    private boolean drop(K key) {
        outside.delete(key);
        boolean was = entries.remove(key);
        counters.removed(was);
        return was;
    }

    @Override public synchronized boolean remove(K key) {
        open(key);
        return drop(key);
    }

    @Override public synchronized boolean remove(K key, V old) {
        open(key, old);
        V value = looked(key);
        if (old.equals(value)) {
            return drop(key);
        }
        entries.access(key);
        return false;
    }

    @Override public synchronized V getAndRemove(K key) {
        open(key);
        V old = looked(key);
        drop(key);
        return old;
    }

    @Override public synchronized boolean replace(K key, V old, V next) {
        open(key, old, next);
        V value = looked(key);
        if (old.equals(value)) {
            store(key, next);
            return true;
        }
        entries.access(key);
        return false;
    }

    @Override public synchronized boolean replace(K key, V value) {
        return getAndReplace(key, value) != null;
    }

    @Override public synchronized V getAndReplace(K key, V value) {
        open(key, value);
        V old = looked(key);
        if (old != null) {
            store(key, value);
        }
        return old;
    }

    @Override public synchronized void removeAll(Set<? extends K> keys) {
        open(keys);
        keys.forEach(Objects::requireNonNull);
        Outside.Written<K> written = outside.deleteAll(keys);
        written.keys().forEach(key -> counters.removed(entries.remove(key)));
        if (written.failure() != null) {
            throw written.failure();
        }
    }

    @Override public synchronized void removeAll() {
        open();
        removeAll(new HashSet<>(entries.keys()));
    }

    @Override public synchronized void clear() {
        open();
        entries.clear();
    }

    @Override public <C extends Configuration<K, V>> C getConfiguration(Class<C> type) {
        open();
        MutableConfiguration<K, V> copy = new MutableConfiguration<>(configuration);
        if (type.isInstance(copy)) {
            return type.cast(copy);
        }
        throw new IllegalArgumentException(type.getName());
    }

    @Override public synchronized <T> T invoke(K key, EntryProcessor<K, V, T> processor, Object... arguments) {
        open(key, processor);
        V old = looked(key);
        Run<K, V> run = new Run<>(key, old, outside::load);
        T result;
        try {
            result = processor.process(run, arguments);
        } catch (EntryProcessorException e) {
            throw e;
        } catch (Exception e) {
            throw new EntryProcessorException(e);
        }
        switch (run.left()) {
            case SET: store(key, run.value()); break;
            case LOAD: entries.put(key, run.value()); break;
            case REMOVE: drop(key); break;
            case ACCESS: entries.access(key); break;
            default: break;
        }
        return result;
    }

    @Override public <T> Map<K, EntryProcessorResult<T>> invokeAll(Set<? extends K> keys, EntryProcessor<K, V, T> processor, Object... arguments) {
        open(keys, processor);
        keys.forEach(Objects::requireNonNull);
        Map<K, EntryProcessorResult<T>> results = new HashMap<>();
        for (K key : keys) {
            try {
                T result = invoke(key, processor, arguments);
                if (result != null) {
                    results.put(key, () -> result);
                }
            } catch (EntryProcessorException e) {
                results.put(key, () -> {
                    throw e;
                });
            }
        }
        return results;
    }

    @Override public String getName() {
        return name;
    }

    @Override public CacheManager getCacheManager() {
        return manager;
    }

    @Override public synchronized void close() {
        if (!closed) {
            enableStatistics(false);
            enableManagement(false);
            closed = true;
            manager.forget(this);
            events.close();
            outside.close();
        }
    }

    @Override public boolean isClosed() {
        return closed;
    }

    @Override public <T> T unwrap(Class<T> type) {
        if (type.isInstance(this)) {
            return type.cast(this);
        }
        throw new IllegalArgumentException(type.getName());
    }

    @Override public void registerCacheEntryListener(CacheEntryListenerConfiguration<K, V> by) {
        open(by);
        events.add(by);
        configuration.addCacheEntryListenerConfiguration(by);
    }

    @Override public void deregisterCacheEntryListener(CacheEntryListenerConfiguration<K, V> by) {
        open(by);
        events.remove(by);
        configuration.removeCacheEntryListenerConfiguration(by);
    }

    @Override public synchronized Iterator<Entry<K, V>> iterator() {
        open();
        Iterator<K> keys = entries.keys().iterator();
        return new Iterator<>() {
            private Pair<K, V> next;
            private K last;

            @Override public boolean hasNext() {
                open();
                while (next == null && keys.hasNext()) {
                    K key = keys.next();
                    V value = entries.access(key);
                    next = value == null ? null : new Pair<>(key, value);
                }
                return next != null;
            }

            @Override public Entry<K, V> next() {
                if (!hasNext()) {
                    throw new java.util.NoSuchElementException();
                }
                Pair<K, V> it = next;
                last = it.key();
                next = null;
                counters.looked(true);
                return it;
            }

            @Override public void remove() {
                if (last == null) {
                    throw new IllegalStateException("next wasn't called");
                }
                ReferenceCache.this.remove(last);
                last = null;
            }
        };
    }
}
