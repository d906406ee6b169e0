package javax.cache.processor;

import javax.cache.Cache;

/** The entry that a processor is run on. */
public interface MutableEntry<K, V> extends Cache.Entry<K, V> {
    boolean exists();

    void remove();

    void setValue(V value);
}
