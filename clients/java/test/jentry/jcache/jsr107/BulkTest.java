package jentry.jcache.jsr107;

import static jentry.jcache.jsr107.Expect.no;
import static jentry.jcache.jsr107.Expect.none;
import static jentry.jcache.jsr107.Expect.same;
import static jentry.jcache.jsr107.Expect.soon;
import static jentry.jcache.jsr107.Expect.thrown;
import static jentry.jcache.jsr107.Expect.yes;

import java.util.HashMap;
import java.util.HashSet;
import java.util.Map;
import java.util.Set;
import java.util.concurrent.atomic.AtomicInteger;
import javax.cache.Cache;
import javax.cache.integration.CompletionListener;
import org.junit.jupiter.api.Tag;

/** The methods on several keys. */
@Tag("server")
class BulkTest {
    @Jsr void getAll(Subject on) {
        Cache<Long, Long> cache = on.cache();
        same(Map.of(), cache.getAll(on.keys(3)));
        same(Map.of(), cache.getAll(Set.of()));
        cache.put(on.key(0), 1L);
        cache.put(on.key(2), 3L);
        same(Map.of(on.key(0), 1L, on.key(2), 3L), cache.getAll(on.keys(3)));
        same(Map.of(on.key(2), 3L), cache.getAll(Set.of(on.key(2))));
        same(Map.of(), cache.getAll(Set.of(on.key(1))));
        no(cache.containsKey(on.key(1)));
    }

    @Jsr void putAll(Subject on) {
        Cache<Long, Long> cache = on.cache();
        cache.putAll(Map.of());
        cache.put(on.key(0), 9L);
        Map<Long, Long> map = new HashMap<>(Map.of(on.key(0), 1L, on.key(1), 2L));
        cache.putAll(map);
        same(map, cache.getAll(on.keys(3)));
        map.put(on.key(2), 3L);
        no(cache.containsKey(on.key(2)));
        cache.putAll(map);
        same(map, cache.getAll(on.keys(3)));
    }

    @Jsr void aNullAmongThem(Subject on) {
        Cache<Long, Long> cache = on.cache();
        Map<Long, Long> nullValue = new HashMap<>(), nullKey = new HashMap<>();
        nullValue.put(on.key(0), null);
        nullKey.put(null, 1L);
        Set<Long> withNull = new HashSet<>(Set.of(on.key(0)));
        withNull.add(null);
        thrown(NullPointerException.class, () -> cache.putAll(nullValue));
        thrown(NullPointerException.class, () -> cache.putAll(nullKey));
        thrown(NullPointerException.class, () -> cache.getAll(withNull));
        cache.put(on.key(0), 1L);
        thrown(NullPointerException.class, () -> cache.removeAll(withNull));
        same(1L, cache.get(on.key(0)));
        thrown(NullPointerException.class, () -> cache.loadAll(withNull, true, null));
        thrown(NullPointerException.class, () -> cache.invokeAll(withNull, new Processors.Value()));
    }

    @Jsr void removeAllOfKeys(Subject on) {
        Cache<Long, Long> cache = on.cache();
        cache.removeAll(Set.of());
        cache.removeAll(on.keys(2));
        cache.putAll(Map.of(on.key(0), 1L, on.key(1), 2L, on.key(2), 3L));
        cache.removeAll(Set.of(on.key(0), on.key(1), on.key(7)));
        none(cache.get(on.key(0)));
        none(cache.get(on.key(1)));
        same(3L, cache.get(on.key(2)));
        cache.removeAll(Set.of());
        yes(cache.containsKey(on.key(2)));
    }

    @Deviates("Keys")
    @Jsr void removeAll(Subject on) {
        Cache<Long, Long> cache = on.cache();
        cache.removeAll();
        cache.putAll(Map.of(on.key(0), 1L, on.key(1), 2L, -5L, 3L, Long.MIN_VALUE, 4L));
        cache.removeAll();
        same(Map.of(), cache.getAll(Set.of(on.key(0), on.key(1), -5L, Long.MIN_VALUE)));
        no(cache.iterator().hasNext());
        cache.put(on.key(0), 5L);
        same(5L, cache.get(on.key(0)));
    }

    @Deviates("Keys")
    @Jsr void clear(Subject on) {
        Cache<Long, Long> cache = on.cache();
        cache.clear();
        cache.putAll(Map.of(on.key(0), 1L, on.key(1), 2L));
        cache.invoke(on.key(2), new Processors.Sets(), 3L);
        cache.putIfAbsent(on.key(3), 4L);
        cache.clear();
        same(Map.of(), cache.getAll(on.keys(4)));
        no(cache.iterator().hasNext());
        no(cache.containsKey(on.key(2)));
        cache.put(on.key(2), 6L);
        same(6L, cache.get(on.key(2)));
        cache.clear();
        cache.clear();
        no(cache.containsKey(on.key(2)));
    }

    @Deviates("Keys")
    @Jsr void clearReachesEveryWayIn(Subject on) {
        Cache<Long, Long> cache = on.cache();
        cache.getAndPut(on.key(0), 1L);
        cache.invokeAll(Set.of(on.key(1), on.key(2)), new Processors.Adds(), 2L);
        cache.put(on.key(3), 1L);
        cache.remove(on.key(3));
        cache.put(on.key(3), 4L);
        cache.putIfAbsent(on.key(4), 5L);
        same(5, cache.getAll(on.keys(5)).size());
        cache.clear();
        same(Map.of(), cache.getAll(on.keys(5)));
        no(cache.remove(on.key(0)));
        none(cache.getAndRemove(on.key(1)));
        no(cache.replace(on.key(2), 1L));
    }

    @Jsr void loadAllWithoutALoader(Subject on) {
        Cache<Long, Long> cache = on.cache();
        AtomicInteger done = new AtomicInteger(), failed = new AtomicInteger();
        cache.loadAll(on.keys(2), true, new CompletionListener() {
            @Override public void onCompletion() {
                done.incrementAndGet();
            }

            @Override public void onException(Exception e) {
                failed.incrementAndGet();
            }
        });
        soon(() -> done.get() == 1);
        same(0, failed.get());
        no(cache.containsKey(on.key(0)));
        cache.loadAll(on.keys(2), false, null);
        no(cache.containsKey(on.key(0)));
    }

    @Jsr void manyKeys(Subject on) {
        Cache<Long, Long> cache = on.cache();
        Map<Long, Long> many = new HashMap<>();
        for (long i = 0; i < 3_000; i++) {
            many.put(on.key(i), i * i);
        }
        cache.putAll(many);
        same(many, cache.getAll(many.keySet()));
        Set<Long> half = new HashSet<>();
        for (long i = 0; i < 3_000; i += 2) {
            half.add(on.key(i));
        }
        cache.removeAll(half);
        many.keySet().removeAll(half);
        same(many, cache.getAll(on.keys(3_000)));
        cache.removeAll(many.keySet());
        same(Map.of(), cache.getAll(on.keys(3_000)));
    }
}
