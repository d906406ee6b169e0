package jentry.jcache;

import static org.junit.jupiter.api.Assertions.assertEquals;
import static org.junit.jupiter.api.Assertions.assertNotSame;
import static org.junit.jupiter.api.Assertions.assertNull;
import static org.junit.jupiter.api.Assertions.assertSame;
import static org.junit.jupiter.api.Assertions.assertThrows;
import static org.junit.jupiter.api.Assertions.assertTrue;

import java.util.List;
import java.util.Map;
import java.util.Set;
import javax.cache.Cache;
import javax.cache.CacheManager;
import javax.cache.configuration.MutableConfiguration;
import org.junit.jupiter.api.BeforeEach;
import org.junit.jupiter.api.Test;

/** Tests that the types of a cache must be Long and Long, on the real server. */
class TypesTest extends OnServer {
    private CacheManager manager;

    @BeforeEach void find() {
        manager = server.manager;
    }

    @Test void typesAreLong() {
        for (MutableConfiguration<?, ?> wanted : List.of(new MutableConfiguration<>(),
            new MutableConfiguration<Object, Object>().setTypes(Object.class, Object.class), new MutableConfiguration<String, Long>().setTypes(String.class, Long.class),
            new MutableConfiguration<Long, Integer>().setTypes(Long.class, Integer.class))) {
            String message = assertThrows(IllegalArgumentException.class, () -> manager.createCache("a", wanted)).getMessage();
            assertTrue(message.contains("setTypes(Long.class, Long.class)"), message);
            assertNull(manager.getCache("a"));
        }
    }

    @Test void aCacheIsFoundByItsTypesOrByNone() {
        assertSame(cache, manager.getCache("test", Long.class, Long.class));
        assertSame(cache, manager.getCache("test"));
        assertThrows(ClassCastException.class, () -> manager.getCache("test", String.class, Long.class));
        assertThrows(ClassCastException.class, () -> manager.getCache("test", Long.class, Integer.class));
        assertThrows(ClassCastException.class, () -> manager.getCache("test", Object.class, Object.class));
    }

    @SuppressWarnings({"unchecked", "rawtypes"})
    @Test void whatIsNoLongIsRefusedBeforeAnythingIsSent() {
        Cache untyped = manager.getCache("test");
        long rounds = rounds();
        assertThrows(ClassCastException.class, () -> untyped.put("1", 1L));
        assertThrows(ClassCastException.class, () -> untyped.put(k, 1));
        assertThrows(ClassCastException.class, () -> untyped.get(1));
        assertThrows(ClassCastException.class, () -> untyped.getAll(Set.of("1")));
        assertThrows(ClassCastException.class, () -> untyped.putAll(Map.of(k, "1")));
        assertEquals(rounds, rounds());
    }

    @Test void valuesAreStoredByValue() {
        Long value = Long.valueOf(1L << 40);
        cache.put(k, value);
        assertEquals(value, cache.get(k));
        assertNotSame(value, cache.get(k));
    }
}
