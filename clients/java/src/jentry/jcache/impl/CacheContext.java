package jentry.jcache.impl;

import javax.cache.Cache;
import javax.cache.configuration.CacheEntryListenerConfiguration;
import javax.cache.configuration.MutableConfiguration;
import javax.cache.event.EventType;
import javax.cache.management.CacheStatisticsMXBean;
import jentry.jcache.store.Durations;
import jentry.jcache.store.Store;
import jentry.jcache.store.Watcher;

/** The parts of one cache that its methods share. */
public final class CacheContext {
    final Cache<Long, Long> cache;
    final Store store;
    final MutableConfiguration<Long, Long> configuration;
    final boolean isLocal;
    final boolean isCompiling;
    final ExpiryDurations expiry;
    final ReadThrough loader;
    final WriteThrough writer;
    final CacheStatistics statistics = new CacheStatistics();
    final EventDispatcher events;
    final KeyLocks locks = new KeyLocks();
    private final LastValues last = new LastValues();
    private final CacheBeans beans;
    private final AutoCloseable watching;

    /**
     * Creates the parts that a configuration names.
     *
     * @param cache the cache, as the source of events and for the names of the beans
     */
    public CacheContext(Cache<Long, Long> cache, MutableConfiguration<Long, Long> configuration, Store store,
        Options options) {
        this.cache = cache;
        beans = new CacheBeans(cache);
        this.store = options.events() == Options.Events.EXPIRED ? new RecordingStore(store, last) : store;
        this.configuration = configuration;
        isLocal = options.isLocal();
        isCompiling = options.isCompiling();
        expiry = new ExpiryDurations(configuration.getExpiryPolicyFactory().create());
        if (!store.hasExpiry() && !expiry.isEternal()) {
            throw new UnsupportedOperationException("expiry: the protocol of jentry serve has none; "
                + "a cache in Redis has it (jentry+redis://HOST:PORT)");
        }
        loader = new ReadThrough(configuration);
        writer = new WriteThrough(configuration);
        events = new EventDispatcher(cache, options.events() == Options.Events.SERVER);
        configuration.getCacheEntryListenerConfigurations().forEach(this::listen);
        watching = options.events() == Options.Events.LOCAL ? () -> { }
            : store.watch((key, kind) -> heard(key, kind, options.events() == Options.Events.SERVER));
        enableStatistics(configuration.isStatisticsEnabled());
        enableManagement(configuration.isManagementEnabled());
    }

    /** Enables or disables the statistics and their bean. */
    public void enableStatistics(boolean wanted) {
        configuration.setStatisticsEnabled(wanted);
        statistics.enable(wanted);
        beans.set("CacheStatistics", statistics, wanted);
    }

    /** Returns the statistics, for tests. */
    public CacheStatisticsMXBean statistics() {
        return statistics;
    }

    /** Registers or unregisters the configuration bean. */
    public void enableManagement(boolean wanted) {
        configuration.setManagementEnabled(wanted);
        beans.set("CacheConfiguration", new CacheBeans.Configured(configuration), wanted);
    }

    private void listen(CacheEntryListenerConfiguration<Long, Long> by) {
        events.add(by);
        if (by.isOldValueRequired()) {
            last.begin();
        }
    }

    /** Adds a listener. */
    public void register(CacheEntryListenerConfiguration<Long, Long> by) {
        listen(by);
        configuration.addCacheEntryListenerConfiguration(by);
    }

    /** Removes a listener. */
    public void deregister(CacheEntryListenerConfiguration<Long, Long> by) {
        events.remove(by);
        configuration.removeCacheEntryListenerConfiguration(by);
    }

    /**
     * Handles an event of the server. The event carries no value, so the value is read; if it is gone by then, the
     * event is dropped. The value of an expired entry is the last one that this cache put or read, if it did.
     */
    private void heard(long key, Watcher.Kind kind, boolean hearsAll) {
        if (events.isEmpty()) {
            return;
        }
        if (kind == Watcher.Kind.EXPIRED) {
            Long value = last.expired(key);
            events.dispatch(EventType.EXPIRED, key, value, value);
        } else if (hearsAll && kind == Watcher.Kind.REMOVED) {
            events.dispatch(EventType.REMOVED, key, null, null);
        } else if (hearsAll) {
            Long value = store.get(key, Durations.LEAVE);
            if (value != null) {
                events.dispatch(kind == Watcher.Kind.CREATED ? EventType.CREATED : EventType.UPDATED, key, value, null);
            }
        }
    }

    /** Closes all parts. */
    public void close() {
        enableStatistics(false);
        enableManagement(false);
        events.close();
        Closing.close(watching);
        try {
            store.close();
        } finally {
            Closing.close(loader.loader());
            Closing.close(writer.writer());
            Closing.close(expiry.policy());
        }
    }
}
