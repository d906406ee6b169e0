package jentry.jcache;

import static org.junit.jupiter.api.Assertions.assertEquals;
import static org.junit.jupiter.api.Assertions.assertNull;
import static org.junit.jupiter.api.Assertions.assertSame;
import static org.junit.jupiter.api.Assertions.assertThrows;
import static org.junit.jupiter.api.Assertions.assertTrue;

import java.util.List;
import java.util.concurrent.atomic.AtomicInteger;
import org.junit.jupiter.api.BeforeEach;
import org.junit.jupiter.api.Test;
import org.springframework.cache.Cache;
import org.springframework.cache.jcache.JCacheCacheManager;

/** Tests Spring's cache abstraction on the provider: every method of its Cache, as a Spring program calls them. */
class SpringTest extends OnServer {
    private Cache spring;
    private javax.cache.Cache<Long, Long> made;

    @BeforeEach void wrap() {
        made = create(Server.types(), "jentry.local", "true");
        JCacheCacheManager manager = new JCacheCacheManager(made.getCacheManager());
        manager.setAllowNullValues(false);
        manager.afterPropertiesSet();
        assertEquals(List.of(made.getName()), List.copyOf(manager.getCacheNames()));
        spring = manager.getCache(made.getName());
        assertNull(manager.getCache("another"));
    }

    @Test void names() {
        assertEquals(made.getName(), spring.getName());
        assertSame(made, spring.getNativeCache());
    }

    @Test void getAndPut() {
        assertNull(spring.get(k));
        spring.put(k, 49L);
        assertEquals(49L, spring.get(k).get());
        assertEquals(49L, spring.get(k, Long.class));
        assertThrows(IllegalStateException.class, () -> spring.get(k, String.class));
    }

    @Test void getWithALoader() {
        AtomicInteger loads = new AtomicInteger();
        for (int i = 0; i < 3; i++) {
            assertEquals(49L, spring.get(k, () -> {
                loads.incrementAndGet();
                return 49L;
            }));
        }
        assertEquals(1, loads.get());
        assertThrows(Cache.ValueRetrievalException.class, () -> spring.get(k + 1, () -> {
            throw new IllegalStateException();
        }));
        assertNull(spring.get(k + 1));
    }

    @Test void putIfAbsentAndEvict() {
        assertNull(spring.putIfAbsent(k, 1L));
        assertEquals(1L, spring.putIfAbsent(k, 2L).get());
        spring.evict(k);
        assertNull(spring.get(k));
    }

    /** Spring's clear calls JCache's removeAll(). */
    @Test void clear() {
        spring.put(k, 1L);
        if (!Server.isFront()) {
            spring.clear();
            assertNull(spring.get(k));
        } else {
            String message = assertThrows(UnsupportedOperationException.class, spring::clear).getMessage();
            assertTrue(message.contains("jentry+redis://"), message);
        }
    }

    @Test void nullValuesAreRefused() {
        assertThrows(NullPointerException.class, () -> spring.put(k, null));
        assertNull(spring.get(k));
    }
}
