package jentry.jcache;

import static org.junit.jupiter.api.Assertions.assertEquals;
import static org.junit.jupiter.api.Assertions.assertFalse;
import static org.junit.jupiter.api.Assertions.assertNull;
import static org.junit.jupiter.api.Assertions.assertThrows;
import static org.junit.jupiter.api.Assertions.assertTrue;

import java.util.Arrays;
import java.util.HashMap;
import java.util.Map;
import org.junit.jupiter.api.Test;

/** Tests the methods that set entries: put, getAndPut, putIfAbsent and putAll. */
class PutTest extends OnServer {
    @Test void putOfANewAndOfAnOldKey() {
        cache.put(k, Long.MIN_VALUE);
        assertEquals(Long.MIN_VALUE, cache.get(k));
        cache.put(k, Long.MAX_VALUE);
        assertEquals(Long.MAX_VALUE, cache.get(k));
        assertFalse(cache.containsKey(k + 1), "another key is as it was");
    }

    @Test void keysOfEverySign() {
        for (long key : new long[] {-k, -k - 1, k, k + 1}) {
            cache.put(key, -key);
        }
        for (long key : new long[] {-k, -k - 1, k, k + 1}) {
            assertEquals(-key, cache.get(key));
            assertTrue(cache.remove(key));
        }
    }

    @Test void getAndPut() {
        assertNull(cache.getAndPut(k, -5L));
        assertEquals(-5L, cache.getAndPut(k, 6L));
        assertEquals(6L, cache.getAndPut(k, 6L));
        assertEquals(6L, cache.get(k));
    }

    @Test void putIfAbsent() {
        assertTrue(cache.putIfAbsent(k, 5L));
        assertFalse(cache.putIfAbsent(k, 6L));
        assertFalse(cache.putIfAbsent(k, 5L));
        assertEquals(5L, cache.get(k));
        cache.remove(k);
        assertTrue(cache.putIfAbsent(k, 7L));
        assertEquals(7L, cache.get(k));
    }

    @Test void putAll() {
        cache.put(k, 1L);
        cache.putAll(Map.of(k, 2L, k + 1, 3L));
        assertEquals(2L, cache.get(k));
        assertEquals(3L, cache.get(k + 1));
        cache.putAll(Map.of());
        assertNull(cache.get(k + 2));
    }

    @Test void aNullInPutAllPutsNothing() {
        Map<Long, Long> nullValue = new HashMap<>(Map.of(k, 1L));
        nullValue.put(k + 1, null);
        Map<Long, Long> nullKey = new HashMap<>(Map.of(k, 1L));
        nullKey.put(null, 1L);
        for (Map<Long, Long> map : Arrays.asList(null, nullValue, nullKey)) {
            assertThrows(NullPointerException.class, () -> cache.putAll(map));
            assertFalse(cache.containsKey(k));
        }
    }

    @Test void nullsAndClosed() {
        assertThrows(NullPointerException.class, () -> cache.put(null, 1L));
        assertThrows(NullPointerException.class, () -> cache.put(k, null));
        assertThrows(NullPointerException.class, () -> cache.getAndPut(null, 1L));
        assertThrows(NullPointerException.class, () -> cache.getAndPut(k, null));
        assertThrows(NullPointerException.class, () -> cache.putIfAbsent(null, 1L));
        assertThrows(NullPointerException.class, () -> cache.putIfAbsent(k, null));
        assertFalse(cache.containsKey(k));
        cache.close();
        assertThrows(IllegalStateException.class, () -> cache.put(k, 1L));
        assertThrows(IllegalStateException.class, () -> cache.getAndPut(k, 1L));
        assertThrows(IllegalStateException.class, () -> cache.putIfAbsent(k, 1L));
        assertThrows(IllegalStateException.class, () -> cache.putAll(Map.of(k, 1L)));
    }
}
