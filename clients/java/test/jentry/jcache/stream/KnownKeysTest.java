package jentry.jcache.stream;

import static org.junit.jupiter.api.Assertions.assertEquals;
import static org.junit.jupiter.api.Assertions.assertTrue;

import java.util.ArrayList;
import java.util.Arrays;
import java.util.HashSet;
import java.util.Iterator;
import java.util.List;
import java.util.Random;
import java.util.Set;
import java.util.TreeSet;
import org.junit.jupiter.api.Test;

/** Tests the keys that a store remembers of a child process. */
class KnownKeysTest {
    private static Set<Long> of(long[] keys) {
        Set<Long> all = new TreeSet<>();
        for (long key : keys) {
            assertTrue(all.add(key), "a key twice");
        }
        return all;
    }

    @Test void aSetOfLongsIsLikeAnyOtherSet() {
        Random random = new Random(5);
        for (int range : new int[] {3, 40, 5_000, Integer.MAX_VALUE}) {
            LongSet set = new LongSet();
            Set<Long> wanted = new TreeSet<>();
            for (int i = 0; i < 20_000; i++) {
                long key = random.nextInt(range) * (random.nextBoolean() ? 1L : -1L << 32);
                if (random.nextInt(5) < (i / 4_000 % 2 == 0 ? 4 : 1)) {
                    set.add(key);
                    wanted.add(key);
                } else {
                    set.remove(key);
                    wanted.remove(key);
                }
            }
            assertEquals(wanted, of(set.toArray()));
            List.copyOf(wanted).forEach(set::remove);
            assertEquals(0, set.toArray().length);
            set.add(Long.MIN_VALUE);
            set.add(0);
            set.clear();
            assertEquals(0, set.toArray().length);
        }
    }

    private static Set<Long> all(KnownKeys keys) {
        List<Long> all = new ArrayList<>();
        for (Iterator<long[]> pages = keys.pages(); pages.hasNext();) {
            Arrays.stream(pages.next()).forEach(all::add);
        }
        assertEquals(new HashSet<>(all).size(), all.size());
        return new HashSet<>(all);
    }

    @Test void aKeyIsThereFromBeforeTheCallOnAndUntilItIsRemoved() {
        KnownKeys keys = new KnownKeys();
        keys.making(7);
        assertEquals(Set.of(7L), all(keys));
        keys.made(7);
        keys.found(8);
        assertEquals(Set.of(7L, 8L), all(keys));
        keys.removing(7);
        keys.removed(7, false);
        assertEquals(Set.of(7L, 8L), all(keys), "a removal that failed");
        keys.removing(7);
        keys.removed(7, true);
        assertEquals(Set.of(8L), all(keys));
        keys.clear();
        assertEquals(Set.of(), all(keys));
    }

    @Test void aRemovalBesideACallThatMayMakeTheEntryKeepsTheKey() {
        KnownKeys keys = new KnownKeys();
        keys.making(7);
        keys.removing(7);
        keys.removed(7, true);
        keys.made(7);
        assertEquals(Set.of(7L), all(keys), "the put may come behind the removal");
        keys.removing(7);
        keys.making(7);
        keys.made(7);
        keys.removed(7, true);
        assertEquals(Set.of(7L), all(keys), "the put began before the removal ended");
        keys.removing(7);
        keys.removed(7, true);
        assertEquals(Set.of(), all(keys));
    }

    @Test void pagesAreFullButForTheLast() {
        KnownKeys keys = new KnownKeys();
        for (long key = -1_500; key < 1_500; key++) {
            keys.found(key);
        }
        List<Integer> lengths = new ArrayList<>();
        for (Iterator<long[]> pages = keys.pages(); pages.hasNext();) {
            lengths.add(pages.next().length);
        }
        assertEquals(List.of(1_024, 1_024, 952), lengths);
        assertEquals(3_000, all(keys).size());
    }
}
