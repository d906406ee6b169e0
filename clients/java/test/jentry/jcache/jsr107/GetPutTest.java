package jentry.jcache.jsr107;

import static jentry.jcache.jsr107.Expect.no;
import static jentry.jcache.jsr107.Expect.none;
import static jentry.jcache.jsr107.Expect.same;
import static jentry.jcache.jsr107.Expect.yes;

import javax.cache.Cache;
import org.junit.jupiter.api.Tag;

/** The methods on one key, each on an absent entry and on one that is there. */
@Tag("server")
class GetPutTest {
    private static final long[] VALUES = {0, 1, -1, Integer.MAX_VALUE, 1L << 31, 9_007_199_254_740_993L, Long.MAX_VALUE, Long.MIN_VALUE};

    @Jsr void getAndContains(Subject on) {
        Cache<Long, Long> cache = on.cache();
        long k = on.key(1);
        none(cache.get(k));
        no(cache.containsKey(k));
        cache.put(k, 5L);
        same(5L, cache.get(k));
        yes(cache.containsKey(k));
        none(cache.get(on.key(2)));
        no(cache.containsKey(on.key(2)));
        same(5L, cache.get(k));
    }

    @Jsr void everyValueComesBack(Subject on) {
        Cache<Long, Long> cache = on.cache();
        for (long value : VALUES) {
            cache.put(on.key(1), value);
            same(value, cache.get(on.key(1)));
            same(value, cache.getAndPut(on.key(1), value + 1));
            same(value + 1, cache.getAndReplace(on.key(1), value));
            yes(cache.replace(on.key(1), value, value + 2));
            yes(cache.remove(on.key(1), value + 2));
        }
    }

    @Deviates("One cache")
    @Jsr void everyKeyIsItsOwn(Subject on) {
        on.name();
        Cache<Long, Long> cache = on.cache();
        for (long key : VALUES) {
            no(cache.containsKey(key));
            cache.put(key, ~key);
        }
        for (long key : VALUES) {
            same(~key, cache.get(key));
            yes(cache.remove(key));
            no(cache.containsKey(key));
        }
    }

    @Jsr void put(Subject on) {
        Cache<Long, Long> cache = on.cache();
        long k = on.key(1);
        cache.put(k, 1L);
        same(1L, cache.get(k));
        cache.put(k, 2L);
        same(2L, cache.get(k));
        cache.put(k, 2L);
        same(2L, cache.get(k));
        cache.put(on.key(2), 3L);
        same(2L, cache.get(k));
        same(3L, cache.get(on.key(2)));
    }

    @Jsr void getAndPut(Subject on) {
        Cache<Long, Long> cache = on.cache();
        long k = on.key(1);
        none(cache.getAndPut(k, 1L));
        same(1L, cache.get(k));
        same(1L, cache.getAndPut(k, 2L));
        same(2L, cache.getAndPut(k, 2L));
        same(2L, cache.get(k));
        none(cache.getAndPut(on.key(2), 7L));
        same(7L, cache.get(on.key(2)));
    }

    @Jsr void putIfAbsent(Subject on) {
        Cache<Long, Long> cache = on.cache();
        long k = on.key(1);
        yes(cache.putIfAbsent(k, 1L));
        same(1L, cache.get(k));
        no(cache.putIfAbsent(k, 2L));
        same(1L, cache.get(k));
        no(cache.putIfAbsent(k, 1L));
        cache.remove(k);
        yes(cache.putIfAbsent(k, 3L));
        same(3L, cache.get(k));
    }

    @Jsr void remove(Subject on) {
        Cache<Long, Long> cache = on.cache();
        long k = on.key(1);
        no(cache.remove(k));
        cache.put(k, 1L);
        yes(cache.remove(k));
        none(cache.get(k));
        no(cache.containsKey(k));
        no(cache.remove(k));
        cache.put(k, 2L);
        same(2L, cache.get(k));
    }

    @Jsr void removeOfAValue(Subject on) {
        Cache<Long, Long> cache = on.cache();
        long k = on.key(1);
        no(cache.remove(k, 1L));
        cache.put(k, 1L);
        no(cache.remove(k, 2L));
        same(1L, cache.get(k));
        yes(cache.remove(k, 1L));
        no(cache.containsKey(k));
        no(cache.remove(k, 1L));
        cache.put(k, Long.MIN_VALUE);
        no(cache.remove(k, Long.MAX_VALUE));
        yes(cache.remove(k, Long.MIN_VALUE));
    }

    @Jsr void getAndRemove(Subject on) {
        Cache<Long, Long> cache = on.cache();
        long k = on.key(1);
        none(cache.getAndRemove(k));
        cache.put(k, 1L);
        same(1L, cache.getAndRemove(k));
        none(cache.get(k));
        none(cache.getAndRemove(k));
        no(cache.containsKey(k));
    }

    @Jsr void replace(Subject on) {
        Cache<Long, Long> cache = on.cache();
        long k = on.key(1);
        no(cache.replace(k, 1L));
        no(cache.containsKey(k));
        cache.put(k, 1L);
        yes(cache.replace(k, 2L));
        same(2L, cache.get(k));
        yes(cache.replace(k, 2L));
        same(2L, cache.get(k));
    }

    @Jsr void replaceOfAValue(Subject on) {
        Cache<Long, Long> cache = on.cache();
        long k = on.key(1);
        no(cache.replace(k, 1L, 2L));
        no(cache.containsKey(k));
        cache.put(k, 1L);
        no(cache.replace(k, 3L, 2L));
        same(1L, cache.get(k));
        yes(cache.replace(k, 1L, 2L));
        same(2L, cache.get(k));
        yes(cache.replace(k, 2L, 2L));
        same(2L, cache.get(k));
        no(cache.replace(k, 1L, 2L));
    }

    @Jsr void getAndReplace(Subject on) {
        Cache<Long, Long> cache = on.cache();
        long k = on.key(1);
        none(cache.getAndReplace(k, 1L));
        no(cache.containsKey(k));
        cache.put(k, 1L);
        same(1L, cache.getAndReplace(k, 2L));
        same(2L, cache.getAndReplace(k, 2L));
        same(2L, cache.get(k));
    }

    @Jsr void equalKeysAreOneKey(Subject on) {
        Cache<Long, Long> cache = on.cache();
        Long one = Long.valueOf(Long.toString(on.key(1))), other = Long.valueOf(Long.toString(on.key(1)));
        yes(one != other);
        cache.put(one, 4L);
        same(4L, cache.get(other));
        yes(cache.containsKey(other));
        yes(cache.replace(other, 4L, 5L));
        same(5L, cache.get(one));
        yes(cache.remove(other));
        no(cache.containsKey(one));
    }

    @Jsr void aRandomHistoryIsThatOfAMap(Subject on) {
        Cache<Long, Long> cache = on.cache();
        java.util.Map<Long, Long> map = new java.util.HashMap<>();
        java.util.Random random = new java.util.Random(7);
        for (int i = 0; i < 150; i++) {
            Long k = on.key(random.nextInt(5)), v = (long) random.nextInt(3), w = (long) random.nextInt(3);
            switch (random.nextInt(9)) {
                case 0: same(map.get(k), cache.get(k)); break;
                case 1: same(map.put(k, v), cache.getAndPut(k, v)); break;
                case 2: same(map.putIfAbsent(k, v) == null, cache.putIfAbsent(k, v)); break;
                case 3: same(map.remove(k) != null, cache.remove(k)); break;
                case 4: same(map.remove(k, v), cache.remove(k, v)); break;
                case 5: same(map.replace(k, v, w), cache.replace(k, v, w)); break;
                case 6: same(map.replace(k, v), cache.getAndReplace(k, v)); break;
                case 7: same(map.remove(k), cache.getAndRemove(k)); break;
                default: same(map.containsKey(k), cache.containsKey(k));
            }
        }
    }
}
