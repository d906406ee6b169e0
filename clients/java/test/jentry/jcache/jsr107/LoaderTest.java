package jentry.jcache.jsr107;

import static jentry.jcache.jsr107.Expect.no;
import static jentry.jcache.jsr107.Expect.none;
import static jentry.jcache.jsr107.Expect.same;
import static jentry.jcache.jsr107.Expect.soon;
import static jentry.jcache.jsr107.Expect.thrown;
import static jentry.jcache.jsr107.Expect.yes;

import java.util.Map;
import java.util.Set;
import java.util.concurrent.atomic.AtomicInteger;
import java.util.concurrent.atomic.AtomicReference;
import javax.cache.Cache;
import javax.cache.integration.CacheLoaderException;
import javax.cache.integration.CompletionListener;
import javax.cache.integration.CompletionListenerFuture;
import org.junit.jupiter.api.Tag;

/** Loaders: which methods read through, and what loadAll does. */
@Tag("server")
class LoaderTest {
    private static final int NONE = 9, FAILS = 8;
    private final Loading loading = new Loading();

    private Cache<Long, Long> cache(Subject on, boolean readsThrough) {
        return on.cache(it -> it.setReadThrough(readsThrough).setCacheLoaderFactory(() -> loading));
    }

    @Jsr void getReadsThrough(Subject on) {
        Cache<Long, Long> cache = cache(on, true);
        long k = Loading.key(on, 1), absent = Loading.key(on, NONE);
        same(Loading.value(k), cache.get(k));
        same(1, loading.count());
        yes(cache.containsKey(k));
        same(Loading.value(k), cache.get(k));
        same(0, loading.count());
        none(cache.get(absent));
        same(1, loading.count());
        no(cache.containsKey(absent));
        cache.put(k, 5L);
        same(5L, cache.get(k));
        same(0, loading.count());
        cache.remove(k);
        same(Loading.value(k), cache.get(k));
        same(1, loading.count());
    }

    @Jsr void getAllReadsThrough(Subject on) {
        Cache<Long, Long> cache = cache(on, true);
        long one = Loading.key(on, 1), two = Loading.key(on, 2), absent = Loading.key(on, NONE);
        cache.put(two, 5L);
        same(Map.of(one, Loading.value(one), two, 5L), cache.getAll(Set.of(one, two, absent)));
        same(2, loading.count());
        yes(cache.containsKey(one));
        no(cache.containsKey(absent));
        same(Map.of(one, Loading.value(one), two, 5L), cache.getAll(Set.of(one, two)));
        same(0, loading.count());
    }

    @Jsr void otherMethodsDontReadThrough(Subject on) {
        Cache<Long, Long> cache = cache(on, true);
        long k = Loading.key(on, 1);
        no(cache.containsKey(k));
        no(cache.remove(k));
        none(cache.getAndRemove(k));
        no(cache.replace(k, 1L));
        none(cache.getAndReplace(k, 1L));
        no(cache.replace(k, Loading.value(k), 1L));
        no(cache.remove(k, Loading.value(k)));
        none(cache.getAndPut(k, 1L));
        same(1L, cache.getAndRemove(k));
        yes(cache.putIfAbsent(k, 2L));
        same(0, loading.count());
    }

    @Jsr void withoutReadThroughALoaderIsForLoadAll(Subject on) {
        Cache<Long, Long> cache = cache(on, false);
        long k = Loading.key(on, 1);
        none(cache.get(k));
        same(Map.of(), cache.getAll(Set.of(k)));
        same(0, loading.count());
        load(cache, Set.of(k), false);
        same(Loading.value(k), cache.get(k));
        same(1, loading.count());
    }

    @Jsr void aLoaderThatFails(Subject on) {
        Cache<Long, Long> cache = cache(on, true);
        long fails = Loading.key(on, FAILS);
        Throwable thrown = thrown(CacheLoaderException.class, () -> cache.get(fails));
        same(IllegalStateException.class, thrown.getCause().getClass());
        same("unwilling", thrown.getCause().getMessage());
        no(cache.containsKey(fails));
        thrown(CacheLoaderException.class, () -> cache.getAll(Set.of(fails)));
        cache.put(fails, 1L);
        same(1L, cache.get(fails));
    }

    private static void load(Cache<Long, Long> cache, Set<Long> keys, boolean replaces) {
        AtomicInteger done = new AtomicInteger();
        cache.loadAll(keys, replaces, new CompletionListener() {
            @Override public void onCompletion() {
                done.incrementAndGet();
            }

            @Override public void onException(Exception e) {
                throw new IllegalStateException(e);
            }
        });
        soon(() -> done.get() == 1);
    }

    @Jsr void loadAll(Subject on) {
        Cache<Long, Long> cache = cache(on, false);
        long one = Loading.key(on, 1), two = Loading.key(on, 2), absent = Loading.key(on, NONE);
        cache.put(one, 5L);
        load(cache, Set.of(one, two, absent), false);
        same(Map.of(one, 5L, two, Loading.value(two)), cache.getAll(Set.of(one, two, absent)));
        same(2, loading.count());
        load(cache, Set.of(one, two, absent), true);
        same(Map.of(one, Loading.value(one), two, Loading.value(two)), cache.getAll(Set.of(one, two, absent)));
        same(3, loading.count());
        load(cache, Set.of(), true);
        load(cache, Set.of(one), false);
        same(0, loading.count());
    }

    @Jsr void loadAllThatFails(Subject on) throws Exception {
        Cache<Long, Long> cache = cache(on, false);
        long fails = Loading.key(on, FAILS);
        AtomicReference<Exception> failure = new AtomicReference<>();
        AtomicInteger done = new AtomicInteger();
        cache.loadAll(Set.of(fails), true, new CompletionListener() {
            @Override public void onCompletion() {
                done.incrementAndGet();
            }

            @Override public void onException(Exception e) {
                failure.set(e);
            }
        });
        soon(() -> failure.get() != null);
        same(0, done.get());
        yes(failure.get() instanceof CacheLoaderException);
        no(cache.containsKey(fails));
        CompletionListenerFuture future = new CompletionListenerFuture();
        cache.loadAll(Set.of(Loading.key(on, 1)), true, future);
        future.get();
        yes(future.isDone());
        same(Loading.value(Loading.key(on, 1)), cache.get(Loading.key(on, 1)));
    }

    @Jsr void processorsOnEntriesThatAreThere(Subject on) {
        Cache<Long, Long> cache = cache(on, true);
        long k = Loading.key(on, 1);
        cache.put(k, 5L);
        same(5L, cache.invoke(k, new Processors.Value()));
        same(1, cache.invoke(k, new Processors.Exists()));
        same(6L, cache.invoke(k, new Processors.Adds(), 1L));
        same(0, loading.count());
    }

    @Jsr void aProcessorLoadsWhenItAsksForTheValue(Subject on) {
        Cache<Long, Long> cache = cache(on, true);
        long k = Loading.key(on, 1), absent = Loading.key(on, NONE), fails = Loading.key(on, FAILS);
        same(0, cache.invoke(k, new Processors.Exists()));
        same(k, cache.invoke(k, new Processors.Key()));
        same(0, loading.count());
        no(cache.containsKey(k));
        same(Loading.value(k), cache.invoke(k, new Processors.Value()));
        same(1, loading.count());
        yes(cache.containsKey(k));
        none(cache.invoke(absent, new Processors.Value()));
        no(cache.containsKey(absent));
        same(7L, cache.invoke(absent, new Processors.Sets(), 7L));
        same(1, loading.count());
        same(1L, cache.invoke(fails, new Processors.Adds(), 1L));
        same(0, loading.count());
    }

    @Jsr void aLoaderIsClosedWithItsCache(Subject on) {
        Cache<Long, Long> cache = cache(on, true);
        no(loading.isClosed);
        cache.close();
        yes(loading.isClosed);
    }
}
