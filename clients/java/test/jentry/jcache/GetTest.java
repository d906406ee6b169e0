package jentry.jcache;

import static org.junit.jupiter.api.Assertions.assertEquals;
import static org.junit.jupiter.api.Assertions.assertFalse;
import static org.junit.jupiter.api.Assertions.assertNull;
import static org.junit.jupiter.api.Assertions.assertThrows;
import static org.junit.jupiter.api.Assertions.assertTrue;

import java.util.Arrays;
import java.util.HashSet;
import java.util.Map;
import java.util.Set;
import org.junit.jupiter.api.Test;

/** Tests the methods that read entries: get, getAll and containsKey. */
class GetTest extends OnServer {
    @Test void getOfAKeyWithoutAnEntry() {
        assertNull(cache.get(k));
        assertFalse(cache.containsKey(k), "a get makes no entry");
    }

    @Test void getOfAnEntry() {
        cache.put(k, 5L);
        assertEquals(5L, cache.get(k));
        assertEquals(5L, cache.get(Long.valueOf(k)), "by an equal key that is another object");
        assertNull(cache.get(k + 1));
    }

    @Test void containsKey() {
        assertFalse(cache.containsKey(k));
        cache.put(k, 0L);
        assertTrue(cache.containsKey(k));
        assertFalse(cache.containsKey(k + 1));
        cache.remove(k);
        assertFalse(cache.containsKey(k));
    }

    @Test void getAll() {
        cache.putAll(Map.of(k, 1L, k + 2, 3L));
        assertEquals(Map.of(k, 1L, k + 2, 3L), cache.getAll(Set.of(k, k + 1, k + 2)));
        assertEquals(Map.of(), cache.getAll(Set.of(k + 1)));
        assertEquals(Map.of(), cache.getAll(Set.of()));
    }

    @Test void nullsAndClosed() {
        Set<Long> withNull = new HashSet<>(Arrays.asList(k, null));
        assertThrows(NullPointerException.class, () -> cache.get(null));
        assertThrows(NullPointerException.class, () -> cache.containsKey(null));
        assertThrows(NullPointerException.class, () -> cache.getAll(null));
        assertThrows(NullPointerException.class, () -> cache.getAll(withNull));
        cache.close();
        assertThrows(IllegalStateException.class, () -> cache.get(k));
        assertThrows(IllegalStateException.class, () -> cache.containsKey(k));
        assertThrows(IllegalStateException.class, () -> cache.getAll(Set.of(k)));
    }
}
