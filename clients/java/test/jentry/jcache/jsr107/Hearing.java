package jentry.jcache.jsr107;

import java.io.Closeable;
import java.util.List;
import java.util.concurrent.CopyOnWriteArrayList;
import javax.cache.configuration.MutableCacheEntryListenerConfiguration;
import javax.cache.event.CacheEntryCreatedListener;
import javax.cache.event.CacheEntryEvent;
import javax.cache.event.CacheEntryExpiredListener;
import javax.cache.event.CacheEntryRemovedListener;
import javax.cache.event.CacheEntryUpdatedListener;

/** A listener that records its events. */
final class Hearing implements CacheEntryCreatedListener<Long, Long>, CacheEntryUpdatedListener<Long, Long>, CacheEntryRemovedListener<Long, Long>,
    CacheEntryExpiredListener<Long, Long>, Closeable {
    final List<CacheEntryEvent<? extends Long, ? extends Long>> events = new CopyOnWriteArrayList<>();
    final List<String> words = new CopyOnWriteArrayList<>();
    final List<Thread> threads = new CopyOnWriteArrayList<>();
    volatile boolean isClosed;

    MutableCacheEntryListenerConfiguration<Long, Long> by(boolean wantsOld, boolean isSynchronous) {
        return new MutableCacheEntryListenerConfiguration<>(() -> this, null, wantsOld, isSynchronous);
    }

    private void hear(String method, Iterable<CacheEntryEvent<? extends Long, ? extends Long>> all) {
        for (var it : all) {
            events.add(it);
            threads.add(Thread.currentThread());
            words.add(method + " " + it.getValue() + " " + it.getOldValue());
        }
    }

    /** Returns the events since the last call: method, value, old value. */
    List<String> heard() {
        List<String> all = List.copyOf(words);
        words.clear();
        return all;
    }

    @Override public void onCreated(Iterable<CacheEntryEvent<? extends Long, ? extends Long>> all) {
        hear("created", all);
    }

    @Override public void onUpdated(Iterable<CacheEntryEvent<? extends Long, ? extends Long>> all) {
        hear("updated", all);
    }

    @Override public void onRemoved(Iterable<CacheEntryEvent<? extends Long, ? extends Long>> all) {
        hear("removed", all);
    }

    @Override public void onExpired(Iterable<CacheEntryEvent<? extends Long, ? extends Long>> all) {
        hear("expired", all);
    }

    @Override public void close() {
        isClosed = true;
    }
}
