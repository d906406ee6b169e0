package jentry.jcache.impl;

import java.util.HashMap;
import java.util.Map;
import java.util.concurrent.TimeUnit;
import jentry.jcache.store.Durations;
import jentry.jcache.store.Effect;
import jentry.jcache.store.Invocation;

/**
 * The last values of entries that can expire, as this cache object put or read them. An event of Redis about an expired
 * entry has no value, so it is taken from here. Nothing is recorded until a listener requires old values.
 */
final class LastValues {
    /** How long after its time an entry may take to expire before its value is forgotten. */
    private static final long LATE_NANOS = TimeUnit.MINUTES.toNanos(5);

    /** How much earlier than by this JVM's clock an entry may expire. */
    private static final long EARLY_NANOS = TimeUnit.SECONDS.toNanos(1);

    private static final int FIRST_SWEEP = 1_024;

    private final Map<Long, Last> all = new HashMap<>();
    private volatile boolean isOn;
    private int sweepsAt = FIRST_SWEEP;

    /** A value, and when its entry expires by {@link System#nanoTime}; a time that isn't known is null. */
    private record Last(long value, Long until) { }

    /** Starts recording. */
    void begin() {
        isOn = true;
    }

    /** Records a value that was set, with the time to live that it got. */
    void set(long key, long value, long time) {
        if (isOn) {
            record(key, value, time, true);
        }
    }

    /** Records a value that was read, with the time to live that it got. */
    void read(long key, Long value, long time) {
        if (isOn && value != null) {
            record(key, value, time, false);
        }
    }

    private synchronized void record(long key, long value, long time, boolean isNew) {
        Last before = all.get(key);
        if (time == Durations.ETERNAL || time == Durations.ZERO) {
            all.remove(key);
        } else if (time != Durations.LEAVE) {
            sweep();
            all.put(key, new Last(value, System.nanoTime() + TimeUnit.MILLISECONDS.toNanos(time)));
        } else if (isNew || before != null) {
            all.put(key, new Last(value, before == null ? null : before.until));
        }
    }

    /** Forgets what should have expired long ago: other clients have removed it, or given it another time. */
    private void sweep() {
        if (all.size() >= sweepsAt) {
            long now = System.nanoTime();
            all.values().removeIf(it -> it.until != null && now - it.until > LATE_NANOS);
            sweepsAt = Math.max(FIRST_SWEEP, 2 * all.size());
        }
    }

    /** Records what a run did. */
    void ran(long key, Invocation done, Durations times) {
        if (!isOn || done.effect() == null) {
            return;
        } else if (done.after() == null) {
            removed(key);
        } else if (done.effect() == Effect.PUT) {
            record(key, done.after(), done.before() == null ? times.created() : times.updated(), true);
        } else {
            record(key, done.after(), times.accessed(), false);
        }
    }

    /** Forgets an entry that was removed. */
    synchronized void removed(long key) {
        all.remove(key);
    }

    /**
     * Returns the value of an entry that has expired, and forgets it; null if it isn't known. The value of an entry
     * that was set since then is kept.
     */
    synchronized Long expired(long key) {
        Last last = all.get(key);
        if (last == null || last.until != null && last.until - System.nanoTime() > EARLY_NANOS) {
            return null;
        }
        all.remove(key);
        return last.value;
    }
}
