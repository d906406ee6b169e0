package jentry.jcache.impl;

import java.util.concurrent.atomic.LongAdder;
import javax.cache.management.CacheStatisticsMXBean;
import jentry.jcache.store.Effect;

/**
 * The statistics of this cache object, collected while they are enabled. Calls of other clients and evictions by the
 * server aren't counted. Times are averages in microseconds.
 */
public final class CacheStatistics implements CacheStatisticsMXBean {
    private static final float NANOS_PER_MICRO = 1_000;

    private final LongAdder hits = new LongAdder(), misses = new LongAdder();
    private final LongAdder puts = new LongAdder(), removals = new LongAdder();
    private final LongAdder getNanos = new LongAdder(), putNanos = new LongAdder(), removeNanos = new LongAdder();
    private volatile boolean enabled;

    void enable(boolean wanted) {
        enabled = wanted;
    }

    boolean isEnabled() {
        return enabled;
    }

    /** Returns the start time of a call, or 0 while the statistics are disabled. */
    long begin() {
        return enabled ? System.nanoTime() : 0;
    }

    /** Counts the hits and misses of a lookup that started at the time {@code begin}. */
    void got(long hit, long missed, long begin) {
        if (enabled) {
            hits.add(hit);
            misses.add(missed);
            add(getNanos, begin);
        }
    }

    /** Counts a hit or a miss of a method that isn't a get, without its time; null means unknown and isn't counted. */
    void looked(Boolean existed) {
        if (enabled && existed != null) {
            (existed ? hits : misses).increment();
        }
    }

    void put(long count, long begin) {
        if (enabled && count > 0) {
            puts.add(count);
            add(putNanos, begin);
        }
    }

    void removed(long count, long begin) {
        if (enabled && count > 0) {
            removals.add(count);
            add(removeNanos, begin);
        }
    }

    /** Counts a run of a processor: a hit or a miss, and a put or a removal according to its effect. */
    void ran(boolean existed, Effect effect, long begin) {
        got(existed ? 1 : 0, existed ? 0 : 1, begin);
        if (effect == Effect.PUT) {
            put(1, begin);
        } else if (effect == Effect.DELETE && existed) {
            removed(1, begin);
        }
    }

    /** Adds the time since {@code begin}. A call that started while the statistics were disabled has no time. */
    private static void add(LongAdder nanos, long begin) {
        if (begin != 0) {
            nanos.add(System.nanoTime() - begin);
        }
    }

    @Override public void clear() {
        for (LongAdder it : new LongAdder[] {hits, misses, puts, removals, getNanos, putNanos, removeNanos}) {
            it.reset();
        }
    }

    private static float share(long part, long of) {
        return of == 0 ? 0 : 100f * part / of;
    }

    private static float micros(LongAdder nanos, long count) {
        return count == 0 ? 0 : nanos.sum() / NANOS_PER_MICRO / count;
    }

    @Override public long getCacheHits() {
        return hits.sum();
    }

    @Override public float getCacheHitPercentage() {
        return share(getCacheHits(), getCacheGets());
    }

    @Override public long getCacheMisses() {
        return misses.sum();
    }

    @Override public float getCacheMissPercentage() {
        return share(getCacheMisses(), getCacheGets());
    }

    @Override public long getCacheGets() {
        return getCacheHits() + getCacheMisses();
    }

    @Override public long getCachePuts() {
        return puts.sum();
    }

    @Override public long getCacheRemovals() {
        return removals.sum();
    }

    /** Returns 0: a server doesn't report evictions to its clients. */
    @Override public long getCacheEvictions() {
        return 0;
    }

    @Override public float getAverageGetTime() {
        return micros(getNanos, getCacheGets());
    }

    @Override public float getAveragePutTime() {
        return micros(putNanos, getCachePuts());
    }

    @Override public float getAverageRemoveTime() {
        return micros(removeNanos, getCacheRemovals());
    }
}
