package jentry.jcache;

import static org.junit.jupiter.api.Assertions.assertEquals;
import static org.junit.jupiter.api.Assertions.assertFalse;
import static org.junit.jupiter.api.Assertions.assertNull;
import static org.junit.jupiter.api.Assertions.assertThrows;
import static org.junit.jupiter.api.Assertions.assertTrue;

import org.junit.jupiter.api.Test;

/** Tests the methods that replace entries: replace with and without the old value, and getAndReplace. */
class ReplaceTest extends OnServer {
    @Test void replaceWhereOld() {
        assertFalse(cache.replace(k, 5L, 6L));
        assertFalse(cache.containsKey(k));
        cache.put(k, 5L);
        assertFalse(cache.replace(k, 6L, 7L));
        assertEquals(5L, cache.get(k));
        assertTrue(cache.replace(k, 5L, -7L));
        assertEquals(-7L, cache.get(k));
        assertTrue(cache.replace(k, -7L, -7L), "by the value that it has");
        assertEquals(-7L, cache.get(k));
    }

    @Test void replace() {
        assertFalse(cache.replace(k, 5L));
        assertFalse(cache.containsKey(k));
        cache.put(k, 5L);
        assertTrue(cache.replace(k, 6L));
        assertEquals(6L, cache.get(k));
        assertFalse(cache.replace(k + 1, 6L));
    }

    @Test void getAndReplace() {
        assertNull(cache.getAndReplace(k, 5L));
        assertFalse(cache.containsKey(k));
        cache.put(k, 5L);
        assertEquals(5L, cache.getAndReplace(k, 6L));
        assertEquals(6L, cache.get(k));
    }

    @Test void nullsAndClosed() {
        cache.put(k, 1L);
        assertThrows(NullPointerException.class, () -> cache.replace(null, 1L));
        assertThrows(NullPointerException.class, () -> cache.replace(k, null));
        assertThrows(NullPointerException.class, () -> cache.replace(null, 1L, 1L));
        assertThrows(NullPointerException.class, () -> cache.replace(k, null, 2L));
        assertThrows(NullPointerException.class, () -> cache.replace(k, 1L, null));
        assertThrows(NullPointerException.class, () -> cache.getAndReplace(null, 1L));
        assertThrows(NullPointerException.class, () -> cache.getAndReplace(k, null));
        assertEquals(1L, cache.get(k));
        cache.close();
        assertThrows(IllegalStateException.class, () -> cache.replace(k, 1L));
        assertThrows(IllegalStateException.class, () -> cache.replace(k, 1L, 2L));
        assertThrows(IllegalStateException.class, () -> cache.getAndReplace(k, 1L));
    }
}
