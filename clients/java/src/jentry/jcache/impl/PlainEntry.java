package jentry.jcache.impl;

import javax.cache.Cache;

/** An entry for iterators and writers. */
record PlainEntry(Long key, Long value) implements Cache.Entry<Long, Long> {
    @Override public Long getKey() {
        return key;
    }

    @Override public Long getValue() {
        return value;
    }

    @Override public <T> T unwrap(Class<T> type) {
        return Unwrap.as(type, this, "an entry");
    }
}
