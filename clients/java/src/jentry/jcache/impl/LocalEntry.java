package jentry.jcache.impl;

import java.util.Objects;
import java.util.function.LongFunction;
import javax.cache.processor.MutableEntry;
import jentry.jcache.store.Effect;

/**
 * The entry that a processor gets when it runs in this JVM. It records what the processor does; the change is written
 * to the store afterwards, if the entry there is still the same.
 */
final class LocalEntry implements MutableEntry<Long, Long> {
    private final long key;
    private final boolean wasThere;
    private final LongFunction<Long> loader;
    private Long value;
    private boolean isSet;
    private boolean isRemoved;
    private boolean isLoaded;
    private boolean isAccessed;
    private boolean wasAsked;

    /**
     * Creates an entry.
     *
     * @param value the value in the store, or null
     * @param loader returns the value of a key that has no entry, or null
     */
    LocalEntry(long key, Long value, LongFunction<Long> loader) {
        this.key = key;
        wasThere = value != null;
        this.value = value;
        this.loader = loader;
    }

    @Override public boolean exists() {
        return value != null;
    }

    /** Removes the entry. An entry that only this run has set or loaded is left out of the store instead. */
    @Override public void remove() {
        isRemoved = wasThere || !isSet && !isLoaded;
        isSet = false;
        isLoaded = false;
        value = null;
    }

    @Override public Long getKey() {
        return key;
    }

    @Override public Long getValue() {
        isAccessed |= value != null;
        if (value == null && !isRemoved && !wasAsked) {
            wasAsked = true;
            value = loader.apply(key);
            isLoaded = value != null;
        }
        return value;
    }

    @Override public void setValue(Long next) {
        value = Objects.requireNonNull(next, "value");
        isSet = true;
        isRemoved = false;
        isLoaded = false;
    }

    /** Returns what the processor did. A value that was only loaded isn't an effect of the processor. */
    Effect effect() {
        return isSet ? Effect.PUT : isRemoved ? Effect.DELETE : Effect.KEEP;
    }

    /** Returns whether the value was loaded, and neither set nor removed afterwards. */
    boolean isLoaded() {
        return isLoaded;
    }

    /** Returns whether the processor read a value that was in the store. */
    boolean isAccessed() {
        return isAccessed;
    }

    /** Returns the value after the run, or null. */
    Long value() {
        return value;
    }

    @Override public <T> T unwrap(Class<T> type) {
        return Unwrap.as(type, this, "an entry");
    }
}
