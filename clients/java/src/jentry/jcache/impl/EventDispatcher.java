package jentry.jcache.impl;

import java.util.List;
import java.util.concurrent.CopyOnWriteArrayList;
import java.util.concurrent.ExecutorService;
import java.util.concurrent.Executors;
import java.util.concurrent.RejectedExecutionException;
import java.util.concurrent.TimeUnit;
import javax.cache.Cache;
import javax.cache.configuration.CacheEntryListenerConfiguration;
import javax.cache.event.CacheEntryCreatedListener;
import javax.cache.event.CacheEntryEvent;
import javax.cache.event.CacheEntryEventFilter;
import javax.cache.event.CacheEntryExpiredListener;
import javax.cache.event.CacheEntryListener;
import javax.cache.event.CacheEntryListenerException;
import javax.cache.event.CacheEntryRemovedListener;
import javax.cache.event.CacheEntryUpdatedListener;
import javax.cache.event.EventType;

/**
 * The listeners of a cache. Synchronous listeners run in the thread that made the change; the others run in one thread
 * of the cache, one event after another. An exception of a synchronous listener is thrown to the caller of the cache,
 * after the change and after the other listeners; an exception of an asynchronous one is logged.
 */
final class EventDispatcher {
    private static final System.Logger LOG = System.getLogger("jentry.jcache");
    private static final long CLOSE_MILLIS = 1_000;

    private final Cache<Long, Long> source;
    private final boolean isFromServer;
    private final List<Registered> all = new CopyOnWriteArrayList<>();
    private ExecutorService executor;
    private volatile Thread thread;
    private boolean closed;

    private record Registered(CacheEntryListenerConfiguration<Long, Long> by,
        CacheEntryListener<? super Long, ? super Long> listener,
        CacheEntryEventFilter<? super Long, ? super Long> filter) { }

    /**
     * Creates a dispatcher without listeners.
     *
     * @param isFromServer whether the events come from the server instead of from the calls of this cache
     */
    EventDispatcher(Cache<Long, Long> source, boolean isFromServer) {
        this.source = source;
        this.isFromServer = isFromServer;
    }

    /** Returns whether there are no listeners. */
    boolean isEmpty() {
        return all.isEmpty();
    }

    /** Returns whether the cache's own changes must be dispatched, which requires the previous values. */
    boolean isAsked() {
        return !isFromServer && !all.isEmpty();
    }

    synchronized void add(CacheEntryListenerConfiguration<Long, Long> by) {
        if (all.stream().anyMatch(it -> it.by().equals(by))) {
            throw new IllegalArgumentException("the listener is registered already");
        }
        var filters = by.getCacheEntryEventFilterFactory();
        all.add(new Registered(by, by.getCacheEntryListenerFactory().create(),
            filters == null ? null : filters.create()));
    }

    synchronized void remove(CacheEntryListenerConfiguration<Long, Long> by) {
        for (Registered it : all) {
            if (it.by().equals(by)) {
                all.remove(it);
                Closing.close(it.listener());
            }
        }
    }

    /** Dispatches a change that a call of this cache made; null means no entry. */
    void changed(long key, Long before, Long after) {
        if (!isAsked() || before == null && after == null) {
            return;
        }
        if (before == null) {
            dispatch(EventType.CREATED, key, after, null);
        } else if (after == null) {
            dispatch(EventType.REMOVED, key, before, before);
        } else {
            dispatch(EventType.UPDATED, key, after, before);
        }
    }

    /**
     * Runs the listeners for a change.
     *
     * @throws CacheEntryListenerException the first exception of a synchronous listener
     */
    void dispatch(EventType type, long key, Long value, Long old) {
        EntryEvent event = new EntryEvent(source, type, key, value, old);
        EntryEvent without = old == null ? event : new EntryEvent(source, type, key, value, null);
        CacheEntryListenerException first = null;
        for (Registered it : all) {
            EntryEvent mine = it.by().isOldValueRequired() ? event : without;
            if (!it.by().isSynchronous()) {
                execute(() -> runLogged(it, mine));
                continue;
            }
            try {
                run(it, mine);
            } catch (CacheEntryListenerException e) {
                first = first == null ? e : first;
            }
        }
        if (first != null) {
            throw first;
        }
    }

    private synchronized void execute(Runnable work) {
        if (closed) {
            return;
        }
        if (executor == null) {
            executor = Executors.newSingleThreadExecutor(first -> {
                thread = new Thread(first, "jentry-listeners-" + source.getName());
                thread.setDaemon(true);
                return thread;
            });
        }
        try {
            executor.execute(work);
        } catch (RejectedExecutionException e) {
            LOG.log(System.Logger.Level.WARNING, "an event of a cache that is being closed is lost", e);
        }
    }

    private static void runLogged(Registered to, EntryEvent event) {
        try {
            run(to, event);
        } catch (CacheEntryListenerException e) {
            LOG.log(System.Logger.Level.WARNING,
                "a listener threw at " + event.getEventType() + " of " + event.getKey(), e);
        }
    }

    private static void run(Registered to, EntryEvent event) {
        try {
            if (isWanted(to, event)) {
                call(to.listener(), event);
            }
        } catch (CacheEntryListenerException e) {
            throw e;
        } catch (RuntimeException e) {
            throw new CacheEntryListenerException(e);
        }
    }

    /**
     * Casts a filter of a supertype of Long. The API's generic types need this cast before the filter accepts an event
     * of Long.
     */
    @SuppressWarnings("unchecked")
    private static boolean isWanted(Registered to, EntryEvent event) {
        return to.filter() == null || ((CacheEntryEventFilter<Long, Long>) to.filter()).evaluate(event);
    }

    /** Casts a listener of a supertype of Long likewise. */
    @SuppressWarnings("unchecked")
    private static void call(CacheEntryListener<?, ?> listener, EntryEvent event) {
        List<CacheEntryEvent<? extends Long, ? extends Long>> events = List.of(event);
        EventType type = event.getEventType();
        if (type == EventType.CREATED && listener instanceof CacheEntryCreatedListener) {
            ((CacheEntryCreatedListener<Long, Long>) listener).onCreated(events);
        } else if (type == EventType.UPDATED && listener instanceof CacheEntryUpdatedListener) {
            ((CacheEntryUpdatedListener<Long, Long>) listener).onUpdated(events);
        } else if (type == EventType.REMOVED && listener instanceof CacheEntryRemovedListener) {
            ((CacheEntryRemovedListener<Long, Long>) listener).onRemoved(events);
        } else if (type == EventType.EXPIRED && listener instanceof CacheEntryExpiredListener) {
            ((CacheEntryExpiredListener<Long, Long>) listener).onExpired(events);
        }
    }

    /** Ends the thread. Waiting events get one second; then a listener that blocks is interrupted. */
    void close() {
        ExecutorService ended;
        synchronized (this) {
            closed = true;
            ended = executor;
        }
        if (ended != null) {
            ended.shutdown();
            try {
                boolean isOwn = Thread.currentThread() == thread;
                if (!isOwn && !ended.awaitTermination(CLOSE_MILLIS, TimeUnit.MILLISECONDS)) {
                    ended.shutdownNow();
                }
            } catch (InterruptedException e) {
                ended.shutdownNow();
                Thread.currentThread().interrupt();
            }
        }
        all.forEach(it -> Closing.close(it.listener()));
        all.clear();
    }
}
