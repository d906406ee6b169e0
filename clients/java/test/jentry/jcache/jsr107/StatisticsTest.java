package jentry.jcache.jsr107;

import static jentry.jcache.jsr107.Expect.no;
import static jentry.jcache.jsr107.Expect.same;
import static jentry.jcache.jsr107.Expect.yes;

import java.util.List;
import java.util.Map;
import java.util.Set;
import javax.cache.Cache;
import javax.cache.expiry.CreatedExpiryPolicy;
import javax.cache.expiry.Duration;
import org.junit.jupiter.api.Tag;

/** Statistics: what each method counts. */
@Tag("server")
class StatisticsTest {
    private static Cache<Long, Long> cache(Subject on) {
        return on.cache(it -> it.setStatisticsEnabled(true));
    }

    /** Checks that a call counts these hits, misses, puts and removals, and starts from zero again. */
    private static void counts(Cache<Long, Long> cache, Runnable call, long hits, long misses, long puts, long removals) {
        Bean bean = Bean.statistics(cache);
        bean.call("clear");
        call.run();
        same(List.of(hits, misses, puts, removals), bean.counts());
        same(hits + misses, bean.get("CacheGets"));
    }

    @Jsr void reads(Subject on) {
        Cache<Long, Long> cache = cache(on);
        long k = on.key(0);
        counts(cache, () -> cache.get(k), 0, 1, 0, 0);
        counts(cache, () -> cache.containsKey(k), 0, 0, 0, 0);
        counts(cache, () -> cache.getAll(on.keys(3)), 0, 3, 0, 0);
        cache.put(k, 1L);
        counts(cache, () -> cache.get(k), 1, 0, 0, 0);
        counts(cache, () -> cache.containsKey(k), 0, 0, 0, 0);
        counts(cache, () -> cache.getAll(on.keys(3)), 1, 2, 0, 0);
        counts(cache, () -> cache.getAll(Set.of()), 0, 0, 0, 0);
    }

    @Jsr void puts(Subject on) {
        Cache<Long, Long> cache = cache(on);
        long k = on.key(0);
        counts(cache, () -> cache.put(k, 1L), 0, 0, 1, 0);
        counts(cache, () -> cache.put(k, 2L), 0, 0, 1, 0);
        counts(cache, () -> cache.getAndPut(k, 3L), 1, 0, 1, 0);
        counts(cache, () -> cache.getAndPut(on.key(1), 3L), 0, 1, 1, 0);
        counts(cache, () -> cache.putIfAbsent(k, 4L), 1, 0, 0, 0);
        counts(cache, () -> cache.putIfAbsent(on.key(2), 4L), 0, 1, 1, 0);
        counts(cache, () -> cache.putAll(Map.of(k, 5L, on.key(3), 6L, on.key(4), 7L)), 0, 0, 3, 0);
        counts(cache, () -> cache.putAll(Map.of()), 0, 0, 0, 0);
    }

    @Jsr void replaces(Subject on) {
        Cache<Long, Long> cache = cache(on);
        long k = on.key(0);
        counts(cache, () -> cache.replace(k, 1L), 0, 1, 0, 0);
        counts(cache, () -> cache.getAndReplace(k, 1L), 0, 1, 0, 0);
        cache.put(k, 1L);
        counts(cache, () -> cache.replace(k, 2L), 1, 0, 1, 0);
        counts(cache, () -> cache.getAndReplace(k, 3L), 1, 0, 1, 0);
        counts(cache, () -> cache.replace(k, 3L, 4L), 1, 0, 1, 0);
    }

    @Jsr void comparisonsThatFail(Subject on) {
        Cache<Long, Long> cache = cache(on);
        long k = on.key(0);
        counts(cache, () -> cache.replace(k, 1L, 2L), 0, 1, 0, 0);
        counts(cache, () -> cache.remove(k, 1L), 0, 1, 0, 0);
        cache.put(k, 1L);
        counts(cache, () -> cache.replace(k, 5L, 6L), 1, 0, 0, 0);
        counts(cache, () -> cache.remove(k, 5L), 1, 0, 0, 0);
    }

    @Jsr void removals(Subject on) {
        Cache<Long, Long> cache = cache(on);
        long k = on.key(0);
        counts(cache, () -> cache.remove(k), 0, 0, 0, 0);
        counts(cache, () -> cache.getAndRemove(k), 0, 1, 0, 0);
        cache.put(k, 1L);
        counts(cache, () -> cache.remove(k), 0, 0, 0, 1);
        cache.put(k, 1L);
        counts(cache, () -> cache.getAndRemove(k), 1, 0, 0, 1);
        cache.put(k, 1L);
        counts(cache, () -> cache.remove(k, 1L), 1, 0, 0, 1);
        cache.putAll(Map.of(k, 1L, on.key(1), 2L));
        counts(cache, () -> cache.removeAll(on.keys(3)), 0, 0, 0, 2);
        counts(cache, () -> cache.removeAll(on.keys(3)), 0, 0, 0, 0);
    }

    @Deviates("Keys")
    @Jsr void removeAllClearAndIterators(Subject on) {
        Cache<Long, Long> cache = cache(on);
        cache.putAll(Map.of(on.key(0), 1L, on.key(1), 2L));
        counts(cache, () -> cache.iterator(), 0, 0, 0, 0);
        counts(cache, () -> cache.forEach(it -> { }), 2, 0, 0, 0);
        counts(cache, cache::removeAll, 0, 0, 0, 2);
        counts(cache, cache::removeAll, 0, 0, 0, 0);
        cache.putAll(Map.of(on.key(0), 1L, on.key(1), 2L));
        counts(cache, cache::clear, 0, 0, 0, 0);
        cache.put(on.key(0), 1L);
        var entries = cache.iterator();
        counts(cache, entries::next, 1, 0, 0, 0);
        counts(cache, entries::remove, 0, 0, 0, 1);
    }

    @Jsr void processors(Subject on) {
        Cache<Long, Long> cache = cache(on);
        long k = on.key(0);
        counts(cache, () -> cache.invoke(k, new Processors.Nothing()), 0, 1, 0, 0);
        counts(cache, () -> cache.invoke(k, new Processors.Value()), 0, 1, 0, 0);
        counts(cache, () -> cache.invoke(k, new Processors.Removes()), 0, 1, 0, 0);
        counts(cache, () -> cache.invoke(k, new Processors.Sets(), 1L), 0, 1, 1, 0);
        counts(cache, () -> cache.invoke(k, new Processors.Adds(), 1L), 1, 0, 1, 0);
        counts(cache, () -> cache.invoke(k, new Processors.Sets(), 2L), 1, 0, 1, 0);
        counts(cache, () -> cache.invoke(k, new Processors.SetsTwice(), 2L, 3L), 1, 0, 1, 0);
        counts(cache, () -> cache.invoke(k, new Processors.Value()), 1, 0, 0, 0);
        counts(cache, () -> cache.invoke(k, new Processors.Key()), 1, 0, 0, 0);
        counts(cache, () -> cache.invokeAll(on.keys(2), new Processors.Adds(), 1L), 1, 1, 2, 0);
        counts(cache, () -> cache.invoke(k, new Processors.Removes()), 1, 0, 0, 1);
    }

    @Jsr void loads(Subject on) {
        Cache<Long, Long> cache = on.cache(it -> it.setStatisticsEnabled(true).setReadThrough(true).setCacheLoaderFactory(Loading::new));
        long k = Loading.key(on, 1);
        counts(cache, () -> cache.get(k), 0, 1, 0, 0);
        counts(cache, () -> cache.get(k), 1, 0, 0, 0);
        counts(cache, () -> cache.getAll(Set.of(k, Loading.key(on, 2))), 1, 1, 0, 0);
    }

    @Deviates("Expiry")
    @Jsr void entriesThatAreNeverThere(Subject on) {
        Cache<Long, Long> cache = on.cache(it -> it.setStatisticsEnabled(true).setExpiryPolicyFactory(CreatedExpiryPolicy.factoryOf(Duration.ZERO)));
        counts(cache, () -> cache.put(on.key(0), 1L), 0, 0, 0, 0);
        counts(cache, () -> cache.getAndPut(on.key(0), 1L), 0, 1, 0, 0);
        counts(cache, () -> cache.putAll(Map.of(on.key(0), 1L, on.key(1), 1L)), 0, 0, 0, 0);
        counts(cache, () -> cache.invoke(on.key(0), new Processors.Sets(), 1L), 0, 1, 0, 0);
        counts(cache, () -> cache.remove(on.key(0)), 0, 0, 0, 0);
    }

    @Jsr void percentagesAndTimes(Subject on) {
        Cache<Long, Long> cache = cache(on);
        Bean bean = Bean.statistics(cache);
        same(0f, bean.get("CacheHitPercentage"));
        same(0f, bean.get("CacheMissPercentage"));
        same(0f, bean.get("AverageGetTime"));
        same(0f, bean.get("AveragePutTime"));
        same(0f, bean.get("AverageRemoveTime"));
        same(0L, bean.get("CacheEvictions"));
        cache.put(on.key(0), 1L);
        for (int i = 0; i < 3; i++) {
            cache.get(on.key(0));
        }
        cache.get(on.key(1));
        cache.remove(on.key(0));
        same(75f, bean.get("CacheHitPercentage"));
        same(25f, bean.get("CacheMissPercentage"));
        same(4L, bean.get("CacheGets"));
        yes((Float) bean.get("AverageGetTime") > 0);
        yes((Float) bean.get("AveragePutTime") > 0);
        yes((Float) bean.get("AverageRemoveTime") > 0);
        bean.call("clear");
        same(List.of(0L, 0L, 0L, 0L), bean.counts());
        same(0f, bean.get("AverageGetTime"));
    }

    @Jsr void whileTheyAreOff(Subject on) {
        Cache<Long, Long> cache = cache(on);
        Bean bean = Bean.statistics(cache);
        cache.get(on.key(0));
        same(List.of(0L, 1L, 0L, 0L), bean.counts());
        cache.getCacheManager().enableStatistics(cache.getName(), false);
        no(bean.isThere());
        cache.get(on.key(0));
        cache.put(on.key(0), 1L);
        cache.getCacheManager().enableStatistics(cache.getName(), true);
        yes(bean.isThere());
        cache.get(on.key(0));
        same(1L, bean.get("CacheHits"));
        same(0L, bean.get("CachePuts"));
    }

    @Jsr void changesOfOneCacheAreItsOwn(Subject on) {
        Cache<Long, Long> cache = cache(on);
        cache.put(on.key(0), 1L);
        cache.get(on.key(0));
        same(List.of(1L, 0L, 1L, 0L), Bean.statistics(cache).counts());
    }
}
