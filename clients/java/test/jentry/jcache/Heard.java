package jentry.jcache;

import java.util.List;
import java.util.concurrent.CopyOnWriteArrayList;
import javax.cache.configuration.MutableCacheEntryListenerConfiguration;
import javax.cache.event.CacheEntryCreatedListener;
import javax.cache.event.CacheEntryEvent;
import javax.cache.event.CacheEntryExpiredListener;
import javax.cache.event.CacheEntryRemovedListener;
import javax.cache.event.CacheEntryUpdatedListener;

/** A listener that records its events: kind, key as a difference, value, old value. */
public final class Heard implements CacheEntryCreatedListener<Long, Long>, CacheEntryUpdatedListener<Long, Long>,
    CacheEntryRemovedListener<Long, Long>, CacheEntryExpiredListener<Long, Long>, AutoCloseable {
    public final List<String> all = new CopyOnWriteArrayList<>();
    public final List<Thread> threads = new CopyOnWriteArrayList<>();
    public volatile boolean isClosed;
    private final long base;

    public Heard(long base) {
        this.base = base;
    }

    private void hear(Iterable<CacheEntryEvent<? extends Long, ? extends Long>> events) {
        for (var it : events) {
            threads.add(Thread.currentThread());
            all.add(it.getEventType() + " " + (it.getKey() - base) + " " + it.getValue() + " " + it.getOldValue());
        }
    }

    /** Returns a registration of this listener. */
    public MutableCacheEntryListenerConfiguration<Long, Long> by(boolean wantsOld, boolean isSynchronous) {
        return new MutableCacheEntryListenerConfiguration<>(() -> this, null, wantsOld, isSynchronous);
    }

    @Override public void onCreated(Iterable<CacheEntryEvent<? extends Long, ? extends Long>> events) {
        hear(events);
    }

    @Override public void onUpdated(Iterable<CacheEntryEvent<? extends Long, ? extends Long>> events) {
        hear(events);
    }

    @Override public void onRemoved(Iterable<CacheEntryEvent<? extends Long, ? extends Long>> events) {
        hear(events);
    }

    @Override public void onExpired(Iterable<CacheEntryEvent<? extends Long, ? extends Long>> events) {
        hear(events);
    }

    @Override public void close() {
        isClosed = true;
    }
}
