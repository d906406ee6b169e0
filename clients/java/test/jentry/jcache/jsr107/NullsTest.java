package jentry.jcache.jsr107;

import static jentry.jcache.jsr107.Expect.eachThrows;
import static jentry.jcache.jsr107.Expect.same;

import java.util.Map;
import javax.cache.Cache;
import org.junit.jupiter.api.Tag;

/** Keys, values and other arguments that are null: a NullPointerException, and no change. */
@Tag("server")
class NullsTest {
    @Jsr void keys(Subject on) {
        Cache<Long, Long> cache = on.cache();
        cache.put(on.key(0), 1L);
        eachThrows(NullPointerException.class, () -> cache.get(null), () -> cache.containsKey(null), () -> cache.put(null, 1L), () -> cache.getAndPut(null, 1L),
            () -> cache.putIfAbsent(null, 1L), () -> cache.remove(null), () -> cache.remove(null, 1L), () -> cache.getAndRemove(null),
            () -> cache.replace(null, 1L), () -> cache.replace(null, 1L, 2L), () -> cache.getAndReplace(null, 1L),
            () -> cache.invoke(null, new Processors.Value()));
        same(Map.of(on.key(0), 1L), cache.getAll(on.keys(2)));
    }

    @Jsr void values(Subject on) {
        Cache<Long, Long> cache = on.cache();
        long k = on.key(0);
        cache.put(k, 1L);
        eachThrows(NullPointerException.class, () -> cache.put(k, null), () -> cache.getAndPut(k, null), () -> cache.putIfAbsent(k, null),
            () -> cache.remove(k, null), () -> cache.replace(k, null), () -> cache.replace(k, null, 2L), () -> cache.replace(k, 1L, null),
            () -> cache.getAndReplace(k, null), () -> cache.putIfAbsent(on.key(1), null));
        same(Map.of(k, 1L), cache.getAll(on.keys(2)));
    }

    @Jsr void collectionsAndOthers(Subject on) {
        Cache<Long, Long> cache = on.cache();
        cache.put(on.key(0), 1L);
        eachThrows(NullPointerException.class, () -> cache.getAll(null), () -> cache.putAll(null), () -> cache.removeAll(null),
            () -> cache.loadAll(null, true, null), () -> cache.invokeAll(null, new Processors.Value()), () -> cache.invokeAll(on.keys(1), null),
            () -> cache.invoke(on.key(0), null), () -> cache.registerCacheEntryListener(null), () -> cache.deregisterCacheEntryListener(null));
        same(1L, cache.get(on.key(0)));
    }

    @Jsr void withALoaderAndAWriterToo(Subject on) {
        Writing writing = new Writing();
        Cache<Long, Long> cache = on.cache(it -> it.setReadThrough(true).setCacheLoaderFactory(Loading::new).setWriteThrough(true)
            .setCacheWriterFactory(() -> writing));
        eachThrows(NullPointerException.class, () -> cache.get(null), () -> cache.put(null, 1L), () -> cache.put(on.key(0), null), () -> cache.remove(null),
            () -> cache.putAll(null), () -> cache.getAll(null));
        same(Map.of(), writing.written);
        same(0, writing.calls.size());
    }
}
