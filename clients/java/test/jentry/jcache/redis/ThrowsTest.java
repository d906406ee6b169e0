package jentry.jcache.redis;

import static org.junit.jupiter.api.Assertions.assertEquals;
import static org.junit.jupiter.api.Assertions.assertFalse;

import java.util.Map;
import java.util.Set;
import javax.cache.Cache;
import javax.cache.processor.EntryProcessorResult;
import jentry.jcache.Throwing;
import jentry.jcache.Thrown;
import org.junit.jupiter.api.Test;

/** Tests the exceptions that processors throw themselves, over Redis. */
class ThrowsTest extends WithStandInModule {
    @Test void theyReachTheCaller() {
        Cache<Long, Long> cache = manager().createCache("test", WithRedis.types());
        for (Thrown it : Thrown.ALL) {
            if (it.text() == null && it.number() == 1) {
                continue;
            }
            it.isThrownBy(() -> cache.invoke(1L, new Throwing(), it.argument()));
            Map<Long, EntryProcessorResult<Long>> results = cache.invokeAll(Set.of(1L, 2L), new Throwing(), it.argument());
            assertEquals(Set.of(1L, 2L), results.keySet());
            results.values().forEach(result -> it.isThrownBy(result::get));
            assertFalse(cache.containsKey(1L));
        }
        assertEquals(3L, cache.invoke(1L, new Throwing(), 3L));
        assertEquals(77L, cache.get(1L));
    }
}
