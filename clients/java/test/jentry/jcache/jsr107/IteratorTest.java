package jentry.jcache.jsr107;

import static jentry.jcache.jsr107.Expect.no;
import static jentry.jcache.jsr107.Expect.none;
import static jentry.jcache.jsr107.Expect.same;
import static jentry.jcache.jsr107.Expect.thrown;
import static jentry.jcache.jsr107.Expect.yes;

import java.util.HashMap;
import java.util.Iterator;
import java.util.Map;
import java.util.NoSuchElementException;
import javax.cache.Cache;
import org.junit.jupiter.api.Tag;

/** Iterators over the entries. */
@Tag("server")
@Deviates("Keys")
class IteratorTest {
    private static Map<Long, Long> all(Cache<Long, Long> cache) {
        Map<Long, Long> all = new HashMap<>();
        for (Cache.Entry<Long, Long> it : cache) {
            none(all.put(it.getKey(), it.getValue()));
        }
        return all;
    }

    @Jsr void anEmptyCache(Subject on) {
        Cache<Long, Long> cache = on.cache();
        no(cache.iterator().hasNext());
        thrown(NoSuchElementException.class, () -> cache.iterator().next());
        thrown(IllegalStateException.class, () -> cache.iterator().remove());
        same(Map.of(), all(cache));
    }

    @Jsr void eachEntryOnce(Subject on) {
        Cache<Long, Long> cache = on.cache();
        Map<Long, Long> wanted = new HashMap<>();
        for (long i = 0; i < 20; i++) {
            wanted.put(on.key(i * i * i), i);
        }
        wanted.put(Long.MAX_VALUE, 1L);
        wanted.put(-1L, 2L);
        cache.putAll(wanted);
        same(wanted, all(cache));
        same(wanted, all(cache));
        cache.remove(-1L);
        wanted.remove(-1L);
        cache.put(on.key(0), 77L);
        wanted.put(on.key(0), 77L);
        same(wanted, all(cache));
    }

    @Jsr void whatEachWayInHasMade(Subject on) {
        Cache<Long, Long> cache = on.cache();
        cache.put(on.key(0), 1L);
        cache.getAndPut(on.key(1), 2L);
        cache.putIfAbsent(on.key(2), 3L);
        cache.invoke(on.key(3), new Processors.Sets(), 4L);
        cache.put(on.key(4), 5L);
        cache.invoke(on.key(4), new Processors.Removes());
        cache.invoke(on.key(5), new Processors.Value());
        same(Map.of(on.key(0), 1L, on.key(1), 2L, on.key(2), 3L, on.key(3), 4L), all(cache));
    }

    @Jsr void hasNextMovesNothing(Subject on) {
        Cache<Long, Long> cache = on.cache();
        cache.put(on.key(0), 1L);
        Iterator<Cache.Entry<Long, Long>> entries = cache.iterator();
        yes(entries.hasNext());
        yes(entries.hasNext());
        Cache.Entry<Long, Long> entry = entries.next();
        same(on.key(0), entry.getKey());
        same(1L, entry.getValue());
        no(entries.hasNext());
        no(entries.hasNext());
        thrown(NoSuchElementException.class, entries::next);
        same(entry, entry.unwrap(Cache.Entry.class));
        thrown(IllegalArgumentException.class, () -> entry.unwrap(String.class));
    }

    @Jsr void remove(Subject on) {
        Cache<Long, Long> cache = on.cache();
        cache.putAll(Map.of(on.key(0), 1L, on.key(1), 2L, on.key(2), 3L));
        Iterator<Cache.Entry<Long, Long>> entries = cache.iterator();
        thrown(IllegalStateException.class, entries::remove);
        long first = entries.next().getKey();
        entries.remove();
        no(cache.containsKey(first));
        thrown(IllegalStateException.class, entries::remove);
        same(2, cache.getAll(on.keys(3)).size());
        entries.next();
        entries.remove();
        entries.next();
        entries.remove();
        no(entries.hasNext());
        same(Map.of(), all(cache));
    }

    @Jsr void entriesThatGoMeanwhile(Subject on) {
        Cache<Long, Long> cache = on.cache();
        cache.putAll(Map.of(on.key(0), 1L, on.key(1), 2L));
        Iterator<Cache.Entry<Long, Long>> entries = cache.iterator();
        cache.removeAll(on.keys(2));
        int left = 0;
        while (entries.hasNext()) {
            yes(on.keys(2).contains(entries.next().getKey()));
            left++;
        }
        yes(left <= 2);
        no(cache.iterator().hasNext());
    }

    @Jsr void twoIterators(Subject on) {
        Cache<Long, Long> cache = on.cache();
        cache.putAll(Map.of(on.key(0), 1L, on.key(1), 2L));
        Iterator<Cache.Entry<Long, Long>> one = cache.iterator(), other = cache.iterator();
        yes(one != other);
        long first = one.next().getValue() + one.next().getValue();
        same(3L, first);
        same(3L, other.next().getValue() + other.next().getValue());
        no(one.hasNext());
        no(other.hasNext());
    }

    @Jsr void aClosedCache(Subject on) {
        Cache<Long, Long> cache = on.cache();
        cache.put(on.key(0), 1L);
        Iterator<Cache.Entry<Long, Long>> entries = cache.iterator();
        entries.next();
        cache.close();
        thrown(IllegalStateException.class, entries::hasNext);
        thrown(IllegalStateException.class, cache::iterator);
    }
}
