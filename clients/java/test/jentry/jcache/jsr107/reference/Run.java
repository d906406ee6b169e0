package jentry.jcache.jsr107.reference;

import java.util.Objects;
import java.util.function.Function;
import javax.cache.processor.MutableEntry;

/** The entry of one run of a processor, which records what the processor does. */
final class Run<K, V> implements MutableEntry<K, V> {
    /** What is left to do behind the run. */
    enum Left { NOTHING, ACCESS, LOAD, SET, REMOVE }

    private final K key;
    private final boolean wasThere;
    private final Function<K, V> loader;
    private V value;
    private Left left = Left.NOTHING;

    Run(K key, V value, Function<K, V> loader) {
        this.key = key;
        this.value = value;
        wasThere = value != null;
        this.loader = loader;
    }

    Left left() {
        return left;
    }

    V value() {
        return value;
    }

    @Override public boolean exists() {
        return value != null;
    }

    @Override public void remove() {
        left = !wasThere && (left == Left.SET || left == Left.LOAD) ? Left.NOTHING : Left.REMOVE;
        value = null;
    }

    @Override public void setValue(V next) {
        value = Objects.requireNonNull(next);
        left = Left.SET;
    }

    @Override public K getKey() {
        return key;
    }

    @Override public V getValue() {
        if (left == Left.NOTHING && value != null) {
            left = Left.ACCESS;
        } else if (left == Left.NOTHING) {
            value = loader.apply(key);
            left = value == null ? Left.NOTHING : Left.LOAD;
        }
        return value;
    }

    @Override public <T> T unwrap(Class<T> type) {
        if (type.isInstance(this)) {
            return type.cast(this);
        }
        throw new IllegalArgumentException(type.getName());
    }
}
