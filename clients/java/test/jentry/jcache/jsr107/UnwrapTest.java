package jentry.jcache.jsr107;

import static jentry.jcache.jsr107.Expect.eachThrows;
import static jentry.jcache.jsr107.Expect.same;
import static jentry.jcache.jsr107.Expect.yes;

import javax.cache.Cache;
import javax.cache.CacheManager;
import org.junit.jupiter.api.Tag;

/** Unwrapping to the provider's own classes, and to nothing else. */
@Tag("server")
class UnwrapTest {
    @Jsr void caches(Subject on) {
        Cache<Long, Long> cache = on.cache();
        yes(cache.unwrap(Cache.class) == cache);
        yes(cache.unwrap(cache.getClass()) == cache);
        yes(cache.unwrap(Object.class) == cache);
        yes(cache.unwrap(Iterable.class) == cache);
        eachThrows(IllegalArgumentException.class, () -> cache.unwrap(String.class), () -> cache.unwrap(CacheManager.class));
    }

    @Jsr void managers(Subject on) {
        CacheManager manager = on.manager();
        yes(manager.unwrap(CacheManager.class) == manager);
        yes(manager.unwrap(manager.getClass()) == manager);
        eachThrows(IllegalArgumentException.class, () -> manager.unwrap(String.class), () -> manager.unwrap(Cache.class));
        same(on.provider(), manager.getCachingProvider());
    }
}
