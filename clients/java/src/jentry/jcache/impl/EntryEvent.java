package jentry.jcache.impl;

import javax.cache.Cache;
import javax.cache.event.CacheEntryEvent;
import javax.cache.event.EventType;

/** A change of one entry, for listeners. */
final class EntryEvent extends CacheEntryEvent<Long, Long> {
    private static final long serialVersionUID = 1L;

    private final Long key;
    private final Long value;
    private final Long old;

    /**
     * Creates an event.
     *
     * @param value the new value, or the removed value, or null if it isn't known
     * @param old the value before, or null if there was none or it isn't known
     */
    EntryEvent(Cache<Long, Long> source, EventType type, long key, Long value, Long old) {
        super(source, type);
        this.key = key;
        this.value = value;
        this.old = old;
    }

    @Override public Long getKey() {
        return key;
    }

    @Override public Long getValue() {
        return value;
    }

    @Override public Long getOldValue() {
        return old;
    }

    @Override public boolean isOldValueAvailable() {
        return old != null;
    }

    @Override public <T> T unwrap(Class<T> type) {
        return Unwrap.as(type, this, "an event");
    }
}
