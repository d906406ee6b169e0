package jentry.jcache;

import static org.junit.jupiter.api.Assertions.assertEquals;
import static org.junit.jupiter.api.Assertions.assertFalse;
import static org.junit.jupiter.api.Assertions.assertNull;
import static org.junit.jupiter.api.Assertions.assertThrows;
import static org.junit.jupiter.api.Assertions.assertTrue;

import java.util.Arrays;
import java.util.HashSet;
import java.util.Map;
import java.util.Set;
import org.junit.jupiter.api.Test;

/** Tests the methods that remove entries: remove with and without the old value, getAndRemove and removeAll of keys. */
class RemoveTest extends OnServer {
    @Test void remove() {
        assertFalse(cache.remove(k));
        cache.put(k, 0L);
        cache.put(k + 1, 1L);
        assertTrue(cache.remove(k));
        assertFalse(cache.remove(k));
        assertNull(cache.get(k));
        assertEquals(1L, cache.get(k + 1), "another key is as it was");
    }

    @Test void removeWhereOld() {
        assertFalse(cache.remove(k, 5L));
        cache.put(k, -5L);
        assertFalse(cache.remove(k, 5L));
        assertTrue(cache.containsKey(k));
        assertTrue(cache.remove(k, Long.valueOf(-5)), "by an equal value");
        assertFalse(cache.containsKey(k));
        assertFalse(cache.remove(k, -5L));
    }

    @Test void getAndRemove() {
        assertNull(cache.getAndRemove(k));
        cache.put(k, 5L);
        assertEquals(5L, cache.getAndRemove(k));
        assertFalse(cache.containsKey(k));
        assertNull(cache.getAndRemove(k));
    }

    @Test void removeAllOfKeys() {
        cache.putAll(Map.of(k, 1L, k + 1, 2L, k + 2, 3L));
        cache.removeAll(Set.of(k, k + 2, k + 5));
        assertEquals(Map.of(k + 1, 2L), cache.getAll(Set.of(k, k + 1, k + 2)));
        cache.removeAll(Set.of());
        assertEquals(2L, cache.get(k + 1));
    }

    @Test void nullsAndClosed() {
        Set<Long> withNull = new HashSet<>(Arrays.asList(k, null));
        cache.put(k, 1L);
        assertThrows(NullPointerException.class, () -> cache.remove(null));
        assertThrows(NullPointerException.class, () -> cache.remove(null, 1L));
        assertThrows(NullPointerException.class, () -> cache.remove(k, null));
        assertThrows(NullPointerException.class, () -> cache.getAndRemove(null));
        assertThrows(NullPointerException.class, () -> cache.removeAll(null));
        assertThrows(NullPointerException.class, () -> cache.removeAll(withNull));
        assertEquals(1L, cache.get(k));
        cache.close();
        assertThrows(IllegalStateException.class, () -> cache.remove(k));
        assertThrows(IllegalStateException.class, () -> cache.remove(k, 1L));
        assertThrows(IllegalStateException.class, () -> cache.getAndRemove(k));
        assertThrows(IllegalStateException.class, () -> cache.removeAll(Set.of(k)));
    }
}
