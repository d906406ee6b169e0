package jentry.jcache;

import static org.junit.jupiter.api.Assertions.assertEquals;
import static org.junit.jupiter.api.Assertions.assertFalse;
import static org.junit.jupiter.api.Assertions.assertThrows;
import static org.junit.jupiter.api.Assertions.assertTrue;
import static org.junit.jupiter.api.Assumptions.assumeFalse;

import java.util.HashMap;
import java.util.Map;
import java.util.Random;
import java.util.Set;
import javax.cache.Cache;
import org.junit.jupiter.api.Test;

/** Tests that a cache on a child process knows its keys, whoever of its callers made them. */
class KeysTest extends OnServer {
    private static final int KEYS = 60;

    private static Map<Long, Long> all(Cache<Long, Long> cache) {
        Map<Long, Long> all = new HashMap<>();
        cache.forEach(it -> all.put(it.getKey(), it.getValue()));
        return all;
    }

    private void change(Cache<Long, Long> by, Random random) {
        long key = server.key(random.nextInt(KEYS));
        switch (random.nextInt(9)) {
            case 0: by.put(key, 1L); break;
            case 1: by.putIfAbsent(key, 2L); break;
            case 2: by.invoke(key, new Sample.Add(), 3L); break;
            case 3: by.getAndPut(key, 4L); break;
            case 4: server.own().invokeAsync(key, new Sample.Add(), 5L).join(); break;
            case 5: by.getAndRemove(key); break;
            case 6: by.remove(key, 1L); break;
            case 7: by.invokeAll(Set.of(key), new Sample.Removes()); break;
            default: by.remove(key);
        }
    }

    @Test void manyThreadsMakeAndRemoveEntries() throws InterruptedException {
        assumeFalse(Server.isShared(), "a front doesn't list its keys, and keys of Redis are tested elsewhere");
        for (int round = 0; round < 5; round++) {
            int seed = round;
            Team.of(8, t -> {
                Random random = new Random(100 * seed + t);
                for (int i = 0; i < 60; i++) {
                    change(cache, random);
                }
            }).join();
            assertEquals(cache.getAll(server.keys(0, KEYS)), all(cache));
        }
        cache.clear();
        assertEquals(Map.of(), all(cache));
        assertEquals(Map.of(), cache.getAll(server.keys(0, KEYS)));
    }

    @Test void clearOfMany() {
        assumeFalse(Server.isShared(), "a front doesn't list its keys, and keys of Redis are tested elsewhere");
        Map<Long, Long> many = new HashMap<>(Numbers.upTo(20_000));
        cache.putAll(many);
        assertEquals(many, all(cache));
        cache.clear();
        assertFalse(cache.iterator().hasNext());
        assertEquals(Map.of(), cache.getAll(many.keySet()));
        cache.put(k, 1L);
        assertEquals(Map.of(k, 1L), all(cache));
    }

    @Test void aFrontSaysWhyItCant() {
        assumeFalse(!Server.isFront(), "the others know their keys");
        String message = assertThrows(UnsupportedOperationException.class, cache::clear).getMessage();
        assertTrue(message.startsWith("clear: a front doesn't list its keys"), message);
    }
}
