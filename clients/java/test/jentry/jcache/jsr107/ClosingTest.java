package jentry.jcache.jsr107;

import static jentry.jcache.jsr107.Expect.eachThrows;
import static jentry.jcache.jsr107.Expect.no;
import static jentry.jcache.jsr107.Expect.same;
import static jentry.jcache.jsr107.Expect.thrown;
import static jentry.jcache.jsr107.Expect.yes;

import java.util.Map;
import java.util.Set;
import javax.cache.Cache;
import javax.cache.CacheManager;
import javax.cache.configuration.CompleteConfiguration;
import org.junit.jupiter.api.Tag;

/** Closing a cache, and closing what belongs to it. */
@Tag("server")
class ClosingTest {
    @Jsr void everyMethodOfAClosedCache(Subject on) {
        Cache<Long, Long> cache = on.cache();
        String name = cache.getName();
        CacheManager manager = cache.getCacheManager();
        long k = on.key(0);
        cache.put(k, 1L);
        cache.close();
        cache.close();
        yes(cache.isClosed());
        same(name, cache.getName());
        eachThrows(IllegalStateException.class, () -> cache.get(k), () -> cache.containsKey(k), () -> cache.getAll(on.keys(2)), () -> cache.put(k, 1L),
            () -> cache.getAndPut(k, 1L), () -> cache.putAll(Map.of(k, 1L)), () -> cache.putIfAbsent(k, 1L), () -> cache.remove(k), () -> cache.remove(k, 1L),
            () -> cache.getAndRemove(k), () -> cache.replace(k, 1L), () -> cache.replace(k, 1L, 2L), () -> cache.getAndReplace(k, 1L),
            () -> cache.removeAll(on.keys(2)), cache::removeAll, cache::clear, cache::iterator, () -> cache.invoke(k, new Processors.Value()),
            () -> cache.invokeAll(on.keys(2), new Processors.Value()), () -> cache.loadAll(on.keys(2), true, null),
            () -> cache.getConfiguration(CompleteConfiguration.class), () -> cache.registerCacheEntryListener(new Hearing().by(true, true)),
            () -> cache.deregisterCacheEntryListener(new Hearing().by(true, true)));
        no(manager.isClosed());
    }

    @Jsr void whatBelongsToTheCacheIsClosed(Subject on) {
        Loading loading = new Loading();
        Writing writing = new Writing();
        Hearing heard = new Hearing();
        Cache<Long, Long> cache = on.cache(it -> it.setReadThrough(true).setCacheLoaderFactory(() -> loading).setWriteThrough(true)
            .setCacheWriterFactory(() -> writing).addCacheEntryListenerConfiguration(heard.by(true, true)));
        cache.put(on.key(0), 1L);
        no(loading.isClosed || writing.isClosed || heard.isClosed);
        cache.close();
        yes(loading.isClosed);
        yes(writing.isClosed);
        yes(heard.isClosed);
    }

    @Jsr void theManagerClosesItsCaches(Subject on) {
        Loading loading = new Loading();
        Cache<Long, Long> cache = on.cache(it -> it.setReadThrough(true).setCacheLoaderFactory(() -> loading));
        cache.getCacheManager().close();
        yes(cache.isClosed());
        yes(loading.isClosed);
        thrown(IllegalStateException.class, () -> cache.put(on.key(0), 1L));
    }

    @Jsr void aCacheInAResourceBlock(Subject on) {
        Cache<Long, Long> outside;
        try (Cache<Long, Long> cache = on.cache()) {
            cache.put(on.key(0), 1L);
            outside = cache;
            no(cache.isClosed());
        }
        yes(outside.isClosed());
    }

    @Jsr void aNewCacheOfTheNameWorks(Subject on) {
        CacheManager manager = on.manager();
        String name = on.name();
        for (long i = 0; i < 3; i++) {
            Cache<Long, Long> cache = manager.createCache(name, Subject.types());
            cache.put(on.key(i), i);
            same(i, cache.get(on.key(i)));
            cache.close();
            yes(cache.isClosed());
        }
        same(Set.of(), Set.copyOf((java.util.Collection<String>) java.util.stream.StreamSupport
            .stream(manager.getCacheNames().spliterator(), false).toList()));
    }
}
