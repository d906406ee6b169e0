package jentry.jcache.jsr107;

import static jentry.jcache.jsr107.Expect.no;
import static jentry.jcache.jsr107.Expect.none;
import static jentry.jcache.jsr107.Expect.pause;
import static jentry.jcache.jsr107.Expect.same;
import static jentry.jcache.jsr107.Expect.soon;
import static jentry.jcache.jsr107.Expect.yes;

import java.util.ArrayList;
import java.util.Collections;
import java.util.List;
import java.util.Map;
import java.util.Set;
import java.util.concurrent.TimeUnit;
import java.util.function.Function;
import javax.cache.Cache;
import javax.cache.configuration.Factory;
import javax.cache.expiry.AccessedExpiryPolicy;
import javax.cache.expiry.CreatedExpiryPolicy;
import javax.cache.expiry.Duration;
import javax.cache.expiry.EternalExpiryPolicy;
import javax.cache.expiry.ExpiryPolicy;
import javax.cache.expiry.ModifiedExpiryPolicy;
import javax.cache.expiry.TouchedExpiryPolicy;
import org.junit.jupiter.api.Tag;

/** Expiry policies: which methods of the cache give an entry a new time. */
@Tag("server")
@Deviates("Expiry")
class ExpiryTest {
    private static final long TIME = 900, PART = 600, WHOLE = 1_000;
    private static final long MOST_SCALE = 32;

    private static Duration millis(long count) {
        return new Duration(TimeUnit.MILLISECONDS, count);
    }

    private static Cache<Long, Long> cache(Subject on, Factory<? extends ExpiryPolicy> by) {
        return on.cache(it -> it.setExpiryPolicyFactory(by));
    }

    /**
     * Checks which entries are there after most of their time, after these acts, and after most of it again. Where the machine was too busy to look in time, all
     * times are doubled.
     */
    private static void survivors(Subject on, Function<Duration, Factory<? extends ExpiryPolicy>> by, List<Act> acts, boolean... stays) {
        for (long scale = 1;; scale *= 2) {
            Cache<Long, Long> cache = cache(on, by.apply(millis(TIME * scale)));
            long begin = System.nanoTime();
            List<Boolean> first = new ArrayList<>(), then = new ArrayList<>(), wanted = new ArrayList<>();
            for (int i = 0; i < acts.size(); i++) {
                cache.put(on.key(i), 1L);
            }
            pause(PART * scale);
            long middle = System.nanoTime();
            for (int i = 0; i < acts.size(); i++) {
                first.add(cache.containsKey(on.key(i)));
                acts.get(i).on(cache, on.key(i));
                wanted.add(stays[i]);
            }
            long acted = System.nanoTime();
            pause(PART * scale);
            for (int i = 0; i < acts.size(); i++) {
                then.add(cache.containsKey(on.key(i)));
            }
            boolean isInTime = isWithin(begin, acted, TIME * scale) && isWithin(middle, System.nanoTime(), TIME * scale);
            if (isInTime || scale == MOST_SCALE) {
                yes(isInTime);
                same(Collections.nCopies(acts.size(), true), first);
                same(wanted, then);
                pause(WHOLE * scale);
                for (int i = 0; i < acts.size(); i++) {
                    no(cache.containsKey(on.key(i)));
                    none(cache.get(on.key(i)));
                }
                same(Map.of(), cache.getAll(on.keys(acts.size())));
                return;
            }
            cache.close();
        }
    }

    private static boolean isWithin(long begin, long end, long millis) {
        return end - begin < TimeUnit.MILLISECONDS.toNanos(millis);
    }

    private interface Act {
        void on(Cache<Long, Long> cache, long key);
    }

    private static final List<Act> READS = List.of((cache, k) -> cache.containsKey(k), (cache, k) -> cache.get(k), (cache, k) -> cache.getAll(Set.of(k)),
        (cache, k) -> cache.replace(k, 5L, 6L), (cache, k) -> cache.remove(k, 5L), (cache, k) -> cache.invoke(k, new Processors.Value()),
        (cache, k) -> cache.putIfAbsent(k, 7L));
    private static final List<Act> WRITES = List.of((cache, k) -> cache.put(k, 2L), (cache, k) -> cache.getAndPut(k, 2L), (cache, k) -> cache.putAll(Map.of(k, 2L)),
        (cache, k) -> cache.replace(k, 2L), (cache, k) -> cache.replace(k, 1L, 2L), (cache, k) -> cache.getAndReplace(k, 2L),
        (cache, k) -> cache.invoke(k, new Processors.Sets(), 2L), (cache, k) -> cache.put(k, 1L));

    @Jsr void createdPolicyAndReads(Subject on) {
        survivors(on, CreatedExpiryPolicy::factoryOf, READS, false, false, false, false, false, false, false);
    }

    @Jsr void createdPolicyAndWrites(Subject on) {
        survivors(on, CreatedExpiryPolicy::factoryOf, WRITES, false, false, false, false, false, false, false, false);
    }

    @Jsr void accessedPolicyAndReads(Subject on) {
        survivors(on, AccessedExpiryPolicy::factoryOf, READS, false, true, true, true, true, true, false);
    }

    @Jsr void accessedPolicyAndWrites(Subject on) {
        survivors(on, AccessedExpiryPolicy::factoryOf, WRITES, false, false, false, false, false, false, false, false);
    }

    @Jsr void modifiedPolicyAndReads(Subject on) {
        survivors(on, ModifiedExpiryPolicy::factoryOf, READS, false, false, false, false, false, false, false);
    }

    @Jsr void modifiedPolicyAndWrites(Subject on) {
        survivors(on, ModifiedExpiryPolicy::factoryOf, WRITES, true, true, true, true, true, true, true, true);
    }

    @Jsr void touchedPolicyAndReads(Subject on) {
        survivors(on, TouchedExpiryPolicy::factoryOf, READS, false, true, true, true, true, true, false);
    }

    @Jsr void touchedPolicyAndWrites(Subject on) {
        survivors(on, TouchedExpiryPolicy::factoryOf, WRITES, true, true, true, true, true, true, true, true);
    }

    @Jsr void aRunThatDoesntReadTheValueIsNoAccess(Subject on) {
        survivors(on, AccessedExpiryPolicy::factoryOf, List.of((cache, k) -> cache.invoke(k, new Processors.Exists()),
            (cache, k) -> cache.invokeAll(Set.of(k), new Processors.Exists()), (cache, k) -> cache.invoke(k, new Processors.ReadsAtZero(), 1L),
            (cache, k) -> cache.invoke(k, new Processors.ReadsAtZero(), 0L), (cache, k) -> cache.invokeAll(Set.of(k), new Processors.ReadsAtZero(), 0L)),
            false, false, false, true, true);
    }

    @Jsr void creationOfZero(Subject on) {
        Cache<Long, Long> cache = cache(on, CreatedExpiryPolicy.factoryOf(Duration.ZERO));
        cache.put(on.key(0), 1L);
        no(cache.containsKey(on.key(0)));
        none(cache.getAndPut(on.key(0), 2L));
        none(cache.get(on.key(0)));
        cache.putAll(Map.of(on.key(0), 1L, on.key(1), 2L));
        same(Map.of(), cache.getAll(on.keys(2)));
        cache.putIfAbsent(on.key(0), 3L);
        no(cache.containsKey(on.key(0)));
        same(4L, cache.invoke(on.key(0), new Processors.Sets(), 4L));
        no(cache.containsKey(on.key(0)));
        no(cache.replace(on.key(0), 5L));
        no(cache.iterator().hasNext());
    }

    @Jsr void accessOfZero(Subject on) {
        Cache<Long, Long> cache = cache(on, () -> new Policy(Duration.ETERNAL, null, Duration.ZERO));
        cache.put(on.key(0), 1L);
        yes(cache.containsKey(on.key(0)));
        same(1L, cache.get(on.key(0)));
        soon(() -> !cache.containsKey(on.key(0)));
        none(cache.get(on.key(0)));
        cache.put(on.key(0), 2L);
        same(Map.of(on.key(0), 2L), cache.getAll(on.keys(1)));
        soon(() -> !cache.containsKey(on.key(0)));
    }

    @Jsr void updateOfZero(Subject on) {
        Cache<Long, Long> cache = cache(on, () -> new Policy(Duration.ETERNAL, Duration.ZERO, null));
        cache.put(on.key(0), 1L);
        same(1L, cache.get(on.key(0)));
        cache.put(on.key(0), 2L);
        soon(() -> !cache.containsKey(on.key(0)));
        cache.put(on.key(0), 3L);
        same(3L, cache.get(on.key(0)));
        yes(cache.replace(on.key(0), 4L));
        soon(() -> !cache.containsKey(on.key(0)));
    }

    /** A custom policy, which counts its calls. */
    private static final class Policy implements ExpiryPolicy {
        private final Duration created;
        private final Duration updated;
        private final Duration accessed;
        private final List<String> calls = new ArrayList<>();

        Policy(Duration created, Duration updated, Duration accessed) {
            this.created = created;
            this.updated = updated;
            this.accessed = accessed;
        }

        @Override public synchronized Duration getExpiryForCreation() {
            calls.add("created");
            return created;
        }

        @Override public synchronized Duration getExpiryForUpdate() {
            calls.add("updated");
            return updated;
        }

        @Override public synchronized Duration getExpiryForAccess() {
            calls.add("accessed");
            return accessed;
        }

        synchronized List<String> called() {
            List<String> all = List.copyOf(calls);
            calls.clear();
            return all;
        }
    }

    @Jsr void whichMethodOfThePolicyIsCalled(Subject on) {
        Policy policy = new Policy(Duration.ETERNAL, null, null);
        Cache<Long, Long> cache = cache(on, () -> policy);
        long k = on.key(0);
        cache.get(k);
        cache.containsKey(k);
        cache.remove(k);
        cache.replace(k, 1L);
        cache.getAndReplace(k, 1L);
        cache.replace(k, 1L, 2L);
        cache.remove(k, 1L);
        same(List.of(), policy.called());
        cache.put(k, 1L);
        same(List.of("created"), policy.called());
        cache.put(k, 2L);
        same(List.of("updated"), policy.called());
        cache.get(k);
        same(List.of("accessed"), policy.called());
        cache.getAll(Set.of(k));
        same(List.of("accessed"), policy.called());
        cache.containsKey(k);
        cache.putIfAbsent(k, 3L);
        same(List.of(), policy.called());
        cache.replace(k, 4L);
        same(List.of("updated"), policy.called());
        cache.replace(k, 4L, 5L);
        same(List.of("updated"), policy.called());
        cache.replace(k, 4L, 6L);
        same(List.of("accessed"), policy.called());
        cache.remove(k, 4L);
        same(List.of("accessed"), policy.called());
        cache.getAndReplace(k, 7L);
        same(List.of("updated"), policy.called());
        cache.invoke(k, new Processors.Sets(), 8L);
        same(List.of("updated"), policy.called());
        cache.getAndRemove(k);
        same(List.of(), policy.called());
        cache.putIfAbsent(k, 9L);
        same(List.of("created"), policy.called());
        cache.remove(k);
        cache.invoke(k, new Processors.Sets(), 8L);
        same(List.of("created"), policy.called());
    }

    @Jsr void aRunCallsThePolicyWhereItReads(Subject on) {
        Policy policy = new Policy(Duration.ETERNAL, null, null);
        Cache<Long, Long> cache = cache(on, () -> policy);
        cache.invoke(on.key(0), new Processors.Value());
        same(List.of(), policy.called());
        cache.put(on.key(0), 1L);
        same(List.of("created"), policy.called());
        cache.invoke(on.key(0), new Processors.Exists());
        cache.invoke(on.key(0), new Processors.ReadsAtZero(), 1L);
        same(List.of(), policy.called());
        cache.invoke(on.key(0), new Processors.ReadsAtZero(), 0L);
        same(List.of("accessed"), policy.called());
    }

    @Jsr void nullChangesNoTime(Subject on) {
        survivors(on, time -> () -> new Policy(time, null, null), List.of((cache, k) -> cache.put(k, 2L), (cache, k) -> cache.get(k)), false, false);
    }

    @Jsr void aPolicyThatThrows(Subject on) {
        Cache<Long, Long> cache = cache(on, () -> new ExpiryPolicy() {
            @Override public Duration getExpiryForCreation() {
                throw new IllegalStateException("unwilling");
            }

            @Override public Duration getExpiryForAccess() {
                throw new IllegalStateException("unwilling");
            }

            @Override public Duration getExpiryForUpdate() {
                throw new IllegalStateException("unwilling");
            }
        });
        cache.put(on.key(0), 1L);
        same(1L, cache.get(on.key(0)));
        cache.put(on.key(0), 2L);
        same(2L, cache.get(on.key(0)));
    }

    @Jsr void anExpiredEntryIsAbsentForEveryMethod(Subject on) {
        Cache<Long, Long> cache = cache(on, CreatedExpiryPolicy.factoryOf(new Duration(TimeUnit.MILLISECONDS, 60)));
        for (int i = 0; i < 12; i++) {
            cache.put(on.key(i), 1L);
        }
        pause(150);
        none(cache.get(on.key(0)));
        no(cache.containsKey(on.key(1)));
        no(cache.remove(on.key(2)));
        none(cache.getAndRemove(on.key(3)));
        no(cache.remove(on.key(4), 1L));
        no(cache.replace(on.key(5), 2L));
        no(cache.replace(on.key(6), 1L, 2L));
        none(cache.getAndReplace(on.key(7), 2L));
        none(cache.getAndPut(on.key(8), 2L));
        yes(cache.putIfAbsent(on.key(9), 2L));
        same(0, cache.invoke(on.key(10), new Processors.Exists()));
        none(cache.invoke(on.key(11), new Processors.Value()));
    }

    @Deviates({ })
    @Jsr void theEternalPolicy(Subject on) {
        Cache<Long, Long> cache = cache(on, EternalExpiryPolicy.factoryOf());
        cache.put(on.key(0), 1L);
        pause(50);
        same(1L, cache.get(on.key(0)));
        cache.put(on.key(0), 2L);
        same(2L, cache.get(on.key(0)));
    }
}
