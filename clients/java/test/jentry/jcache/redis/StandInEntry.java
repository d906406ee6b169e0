package jentry.jcache.redis;

import javax.cache.processor.MutableEntry;

/** The entry of a run of the stand-in for the module. */
final class StandInEntry implements MutableEntry<Long, Long> {
    private final long key;
    private final boolean wasThere;
    private Long value;
    private boolean isSet;

    StandInEntry(long key, Long value) {
        this.key = key;
        this.value = value;
        wasThere = value != null;
    }

    /** Returns what the run did, as JENTRY.APPLY replies it. */
    String effect() {
        return value == null ? wasThere ? "delete" : "keep" : isSet ? "put" : "keep";
    }

    @Override public boolean exists() {
        return value != null;
    }

    @Override public void remove() {
        value = null;
        isSet = false;
    }

    @Override public Long getKey() {
        return key;
    }

    @Override public Long getValue() {
        return value;
    }

    @Override public void setValue(Long next) {
        value = next;
        isSet = true;
    }

    @Override public <T> T unwrap(Class<T> type) {
        return type.cast(this);
    }
}
