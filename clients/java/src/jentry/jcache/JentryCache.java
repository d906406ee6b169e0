package jentry.jcache;

import java.util.HashSet;
import java.util.Iterator;
import java.util.LinkedHashMap;
import java.util.List;
import java.util.Map;
import java.util.Objects;
import java.util.Set;
import java.util.concurrent.CompletableFuture;
import java.util.concurrent.RejectedExecutionException;
import java.util.function.Supplier;
import javax.cache.Cache;
import javax.cache.CacheManager;
import javax.cache.configuration.CacheEntryListenerConfiguration;
import javax.cache.configuration.Configuration;
import javax.cache.configuration.MutableConfiguration;
import javax.cache.integration.CompletionListener;
import javax.cache.processor.EntryProcessor;
import javax.cache.processor.EntryProcessorResult;
import jentry.jcache.impl.BulkOperations;
import jentry.jcache.impl.CacheContext;
import jentry.jcache.impl.EntryOperations;
import jentry.jcache.impl.Options;
import jentry.jcache.impl.ProcessorInvoker;
import jentry.jcache.impl.Unwrap;
import jentry.jcache.store.Store;

/**
 * A cache whose entries are in a server. Any number of threads may use it. Each operation that JCache defines as atomic
 * is one step at the server.
 *
 * <p>Every method throws NullPointerException for a null argument, before anything is sent; IllegalStateException if
 * the cache is closed; {@link CallNotSentException} if the request didn't reach the server; {@link
 * CallOutcomeUnknownException} if the request was sent and no reply came; and CacheException if the server replies with
 * an error.
 */
public final class JentryCache implements Cache<Long, Long> {
    private static final Object[] NONE = {};

    private final String name;
    private final JentryCacheManager manager;
    private final MutableConfiguration<Long, Long> configuration;
    private final Store store;
    private final CacheContext context;
    private final EntryOperations entries;
    private final BulkOperations bulk;
    private final ProcessorInvoker invoker;
    private volatile boolean closed;

    JentryCache(String name, JentryCacheManager manager, MutableConfiguration<Long, Long> configuration, Store store,
        Options options) {
        this.name = name;
        this.manager = manager;
        this.configuration = configuration;
        this.store = store;
        context = new CacheContext(this, configuration, store, options);
        entries = new EntryOperations(context);
        bulk = new BulkOperations(context, entries);
        invoker = new ProcessorInvoker(context, entries);
    }

    private void open() {
        if (closed) {
            throw new IllegalStateException("the cache " + name + " is closed");
        }
    }

    private static long key(Long key) {
        return Objects.requireNonNull(key, "key");
    }

    private static long value(Long value) {
        return Objects.requireNonNull(value, "value");
    }

    private static long[] keys(Set<? extends Long> keys) {
        return keys.stream().mapToLong(JentryCache::key).toArray();
    }

    private static Object[] arguments(Object... arguments) {
        return arguments == null ? NONE : arguments;
    }

    @Override public Long get(Long key) {
        open();
        return entries.get(key(key));
    }

    /**
     * Reads a value like {@link #get} without blocking, unless a loader or a custom expiry policy is called.
     *
     * @return a future with the value or null, or with the exception that {@link #get} would throw
     * @throws java.util.concurrent.RejectedExecutionException if the queue of waiting calls is full ({@code
     *     jentry.queue}); nothing is sent then
     */
    public CompletableFuture<Long> getAsync(Long key) {
        open();
        long at = key(key);
        return inFuture(() -> entries.getAsync(at));
    }

    /**
     * Puts a value like {@link #put} without blocking, unless a writer, a listener or a custom expiry policy is
     * called. Two calls on one key may be done in either order while both are in progress.
     *
     * @return a future that ends after the value was put, or with the exception that {@link #put} would throw
     * @throws java.util.concurrent.RejectedExecutionException if the queue of waiting calls is full ({@code
     *     jentry.queue}); nothing is sent then
     */
    public CompletableFuture<Void> putAsync(Long key, Long value) {
        open();
        long at = key(key), next = value(value);
        return inFuture(() -> entries.putAsync(at, next));
    }

    /** Returns the future, or one that has failed if the work throws. */
    private static <T> CompletableFuture<T> inFuture(Supplier<CompletableFuture<T>> work) {
        try {
            return work.get();
        } catch (RejectedExecutionException e) {
            throw e;
        } catch (RuntimeException e) {
            return CompletableFuture.failedFuture(e);
        }
    }

    /**
     * Counts the entries, by a scan of all of them like that of {@link #iterator}. Entries that are created or removed
     * meanwhile may be counted or not.
     *
     * @throws UnsupportedOperationException on a front, which can't list its keys
     */
    public long size() {
        open();
        return bulk.size();
    }

    @Override public boolean containsKey(Long key) {
        open();
        return entries.contains(key(key));
    }

    @Override public void put(Long key, Long value) {
        open();
        entries.set(key(key), value(value), Store.When.ALWAYS, false, false);
    }

    @Override public Long getAndPut(Long key, Long value) {
        open();
        return entries.set(key(key), value(value), Store.When.ALWAYS, true, true).before();
    }

    @Override public boolean putIfAbsent(Long key, Long value) {
        open();
        return !entries.set(key(key), value(value), Store.When.ABSENT, false, true).existed();
    }

    @Override public boolean replace(Long key, Long value) {
        open();
        return entries.set(key(key), value(value), Store.When.PRESENT, false, true).done();
    }

    @Override public Long getAndReplace(Long key, Long value) {
        open();
        return entries.set(key(key), value(value), Store.When.PRESENT, true, true).before();
    }

    @Override public boolean replace(Long key, Long oldValue, Long newValue) {
        open();
        return entries.compare(key(key), value(oldValue), value(newValue));
    }

    @Override public boolean remove(Long key) {
        open();
        return entries.delete(key(key), false).done();
    }

    @Override public boolean remove(Long key, Long oldValue) {
        open();
        return entries.compare(key(key), value(oldValue), null);
    }

    @Override public Long getAndRemove(Long key) {
        open();
        return entries.delete(key(key), true).before();
    }

    /** Returns the entries of the keys. One request carries several keys; the call isn't atomic over keys. */
    @Override public Map<Long, Long> getAll(Set<? extends Long> keys) {
        open();
        return bulk.getAll(keys(keys));
    }

    /** Puts the entries. One request carries several keys; the call isn't atomic over keys. */
    @Override public void putAll(Map<? extends Long, ? extends Long> map) {
        open();
        Map<Long, Long> all = new LinkedHashMap<>();
        map.forEach((key, value) -> all.put(key(key), value(value)));
        bulk.putAll(all);
    }

    /** Removes the entries of the keys. One request carries several keys; the call isn't atomic over keys. */
    @Override public void removeAll(Set<? extends Long> keys) {
        open();
        bulk.removeAll(keys(keys));
    }

    /**
     * Removes every entry that exists while the call runs.
     *
     * @throws UnsupportedOperationException on a front, which can't list its keys
     */
    @Override public void removeAll() {
        open();
        bulk.removeAll();
    }

    /**
     * Removes every entry like {@link #removeAll()}, but without the writer, the listeners and the statistics.
     *
     * @throws UnsupportedOperationException on a front, which can't list its keys
     */
    @Override public void clear() {
        open();
        bulk.clear();
    }

    /**
     * Returns an iterator over the entries, in no order, each key at most once. It may miss entries that are created or
     * removed during the iteration.
     *
     * @throws UnsupportedOperationException on a front, which can't list its keys
     */
    @Override public Iterator<Entry<Long, Long>> iterator() {
        open();
        return bulk.iterator();
    }

    /** Loads entries in a separate thread. Without a loader it only calls the listener's onCompletion. */
    @Override public void loadAll(Set<? extends Long> keys, boolean replaceExistingValues,
        CompletionListener listener) {
        open();
        Set<Long> all = new HashSet<>();
        keys.forEach(key -> all.add(key(key)));
        bulk.loadAll(List.copyOf(all), replaceExistingValues, listener);
    }

    /**
     * Runs an entry processor at the server. The class file of the processor is sent at its first use; the processor
     * object itself is never sent. If the server can't run it and the property {@code jentry.local} is true, the
     * processor runs in this JVM, unverified and possibly more than once.
     *
     * @param arguments at most eight, each a Long, an Integer, a Boolean or null
     * @return what the processor returned: a Long, an Integer, a Boolean or null
     * @throws javax.cache.processor.EntryProcessorException if the processor threw; the entry is unchanged
     * @throws ProcessorRefusedException if the server refuses the class
     * @throws javax.cache.CacheException also if the class has no class file, or needs more than its own file
     */
    @Override public <T> T invoke(Long key, EntryProcessor<Long, Long, T> processor, Object... arguments) {
        open();
        long at = key(key);
        Objects.requireNonNull(processor, "processor");
        return invoker.invoke(at, processor, arguments(arguments));
    }

    /**
     * Runs an entry processor at the server without blocking. Two invocations on the same key may run in either order
     * while both are in progress. Only the first use of a class blocks, until the server has accepted or refused it.
     *
     * @param arguments at most eight, each a Long, an Integer, a Boolean or null
     * @return a future with the processor's result, or with the exception that {@link #invoke} would throw, also if
     *     the class is refused or an argument can't be sent
     * @throws java.util.concurrent.RejectedExecutionException if the queue of waiting calls is full ({@code
     *     jentry.queue}); nothing is sent then
     */
    public <T> CompletableFuture<T> invokeAsync(Long key, EntryProcessor<Long, Long, T> processor,
        Object... arguments) {
        open();
        long at = key(key);
        Objects.requireNonNull(processor, "processor");
        return inFuture(() -> invoker.invokeAsync(at, processor, arguments(arguments)));
    }

    /**
     * Runs an entry processor on each key, like {@link #invoke}. If the processor threw for a key, the result of that
     * key throws the exception. Keys whose processor returned null are left out.
     */
    @Override public <T> Map<Long, EntryProcessorResult<T>> invokeAll(Set<? extends Long> keys,
        EntryProcessor<Long, Long, T> processor, Object... arguments) {
        open();
        long[] all = keys(keys);
        Objects.requireNonNull(processor, "processor");
        return invoker.invokeAll(all, processor, arguments(arguments));
    }

    /** Returns the number of processor runs in this JVM, by class name. */
    public Map<String, Long> localRuns() {
        return invoker.localRuns();
    }

    @Override public void registerCacheEntryListener(CacheEntryListenerConfiguration<Long, Long> listener) {
        open();
        context.register(Objects.requireNonNull(listener, "listener"));
    }

    @Override public void deregisterCacheEntryListener(CacheEntryListenerConfiguration<Long, Long> listener) {
        open();
        context.deregister(Objects.requireNonNull(listener, "listener"));
    }

    /** Returns a copy of the current configuration. */
    @Override public <C extends Configuration<Long, Long>> C getConfiguration(Class<C> type) {
        open();
        if (type.isInstance(configuration)) {
            return type.cast(new MutableConfiguration<>(configuration));
        }
        throw new IllegalArgumentException("the configuration is no " + type.getName());
    }

    @Override public String getName() {
        return name;
    }

    @Override public CacheManager getCacheManager() {
        return manager;
    }

    /**
     * Closes the cache, and its stream if it has one. Waiting calls fail; the round in progress may finish. The entries
     * of a child process are lost; those of other servers stay.
     */
    @Override public synchronized void close() {
        if (closed) {
            return;
        }
        closed = true;
        manager.forget(this);
        context.close();
    }

    @Override public boolean isClosed() {
        return closed;
    }

    @Override public <T> T unwrap(Class<T> type) {
        return Unwrap.as(type, this, "a cache");
    }

    CacheContext context() {
        return context;
    }

    /** Returns the store, for tests. */
    Store store() {
        return store;
    }
}
