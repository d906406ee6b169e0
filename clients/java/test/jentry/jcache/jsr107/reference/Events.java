package jentry.jcache.jsr107.reference;

import java.util.List;
import java.util.concurrent.CopyOnWriteArrayList;
import javax.cache.Cache;
import javax.cache.configuration.CacheEntryListenerConfiguration;
import javax.cache.event.CacheEntryCreatedListener;
import javax.cache.event.CacheEntryEvent;
import javax.cache.event.CacheEntryEventFilter;
import javax.cache.event.CacheEntryExpiredListener;
import javax.cache.event.CacheEntryListener;
import javax.cache.event.CacheEntryListenerException;
import javax.cache.event.CacheEntryRemovedListener;
import javax.cache.event.CacheEntryUpdatedListener;
import javax.cache.event.EventType;

/** The listeners of a cache. All of them are called in the thread of the change; an asynchronous one's exception goes nowhere. */
final class Events<K, V> {
    private final Cache<K, V> source;
    private final List<Registered<K, V>> all = new CopyOnWriteArrayList<>();

    private record Registered<K, V>(CacheEntryListenerConfiguration<K, V> by, CacheEntryListener<? super K, ? super V> listener,
        CacheEntryEventFilter<? super K, ? super V> filter) { }

    private static final class Event<K, V> extends CacheEntryEvent<K, V> {
        private static final long serialVersionUID = 1L;
        private final transient K key;
        private final transient V value;
        private final transient V old;

        Event(Cache<K, V> source, EventType type, K key, V value, V old) {
            super(source, type);
            this.key = key;
            this.value = value;
            this.old = old;
        }

        @Override public K getKey() {
            return key;
        }

        @Override public V getValue() {
            return value;
        }

        @Override public V getOldValue() {
            return old;
        }

        @Override public boolean isOldValueAvailable() {
            return old != null;
        }

        @Override public <T> T unwrap(Class<T> type) {
            if (type.isInstance(this)) {
                return type.cast(this);
            }
            throw new IllegalArgumentException(type.getName());
        }
    }

    Events(Cache<K, V> source) {
        this.source = source;
    }

    void add(CacheEntryListenerConfiguration<K, V> by) {
        if (all.stream().anyMatch(it -> it.by().equals(by))) {
            throw new IllegalArgumentException("registered already");
        }
        var filter = by.getCacheEntryEventFilterFactory();
        all.add(new Registered<>(by, by.getCacheEntryListenerFactory().create(), filter == null ? null : filter.create()));
    }

    void remove(CacheEntryListenerConfiguration<K, V> by) {
        all.removeIf(it -> it.by().equals(by));
    }

    @SuppressWarnings("unchecked")
    void fire(EventType type, K key, V value, V old) {
        CacheEntryListenerException first = null;
        for (Registered<K, V> it : all) {
            Event<K, V> event = new Event<>(source, type, key, value, it.by().isOldValueRequired() ? old : null);
            try {
                if (it.filter() == null || ((CacheEntryEventFilter<K, V>) it.filter()).evaluate(event)) {
                    call(it.listener(), event);
                }
            } catch (RuntimeException e) {
                if (it.by().isSynchronous() && first == null) {
                    first = e instanceof CacheEntryListenerException own ? own : new CacheEntryListenerException(e);
                }
            }
        }
        if (first != null) {
            throw first;
        }
    }

    @SuppressWarnings("unchecked")
    private void call(CacheEntryListener<?, ?> listener, Event<K, V> event) {
        List<CacheEntryEvent<? extends K, ? extends V>> one = List.of(event);
        EventType type = event.getEventType();
        if (type == EventType.CREATED && listener instanceof CacheEntryCreatedListener) {
            ((CacheEntryCreatedListener<K, V>) listener).onCreated(one);
        } else if (type == EventType.UPDATED && listener instanceof CacheEntryUpdatedListener) {
            ((CacheEntryUpdatedListener<K, V>) listener).onUpdated(one);
        } else if (type == EventType.REMOVED && listener instanceof CacheEntryRemovedListener) {
            ((CacheEntryRemovedListener<K, V>) listener).onRemoved(one);
        } else if (type == EventType.EXPIRED && listener instanceof CacheEntryExpiredListener) {
            ((CacheEntryExpiredListener<K, V>) listener).onExpired(one);
        }
    }

    /** Closes the listeners that can be closed. */
    void close() {
        for (Registered<K, V> it : all) {
            ReferenceCache.closed(it.listener());
        }
        all.clear();
    }
}
