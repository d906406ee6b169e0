package jentry.jcache.jsr107.reference;

import javax.cache.Cache;

/** An entry that doesn't change. */
record Pair<K, V>(K key, V value) implements Cache.Entry<K, V> {
    @Override public K getKey() {
        return key;
    }

    @Override public V getValue() {
        return value;
    }

    @Override public <T> T unwrap(Class<T> type) {
        if (type.isInstance(this)) {
            return type.cast(this);
        }
        throw new IllegalArgumentException(type.getName());
    }
}
