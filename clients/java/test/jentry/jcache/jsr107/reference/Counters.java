package jentry.jcache.jsr107.reference;

import javax.cache.management.CacheStatisticsMXBean;

/** The statistics of a cache. */
public final class Counters implements CacheStatisticsMXBean {
    boolean isOn;
    private long hits;
    private long misses;
    private long puts;
    private long removals;

    void looked(boolean hit) {
        hits += isOn && hit ? 1 : 0;
        misses += isOn && !hit ? 1 : 0;
    }

    void put(boolean done) {
        puts += isOn && done ? 1 : 0;
    }

    void removed(boolean done) {
        removals += isOn && done ? 1 : 0;
    }

    @Override public void clear() {
        hits = 0;
        misses = 0;
        puts = 0;
        removals = 0;
    }

    @Override public long getCacheHits() {
        return hits;
    }

    private float share(long part) {
        return getCacheGets() == 0 ? 0 : 100f * part / getCacheGets();
    }

    @Override public float getCacheHitPercentage() {
        return share(hits);
    }

    @Override public long getCacheMisses() {
        return misses;
    }

    @Override public float getCacheMissPercentage() {
        return share(misses);
    }

    @Override public long getCacheGets() {
        return hits + misses;
    }

    @Override public long getCachePuts() {
        return puts;
    }

    @Override public long getCacheRemovals() {
        return removals;
    }

    @Override public long getCacheEvictions() {
        return 0;
    }

    @Override public float getAverageGetTime() {
        return getCacheGets() == 0 ? 0 : 1;
    }

    @Override public float getAveragePutTime() {
        return puts == 0 ? 0 : 1;
    }

    @Override public float getAverageRemoveTime() {
        return removals == 0 ? 0 : 1;
    }
}
