package jentry.jcache.jsr107;

import static jentry.jcache.jsr107.Expect.eachThrows;
import static jentry.jcache.jsr107.Expect.no;
import static jentry.jcache.jsr107.Expect.none;
import static jentry.jcache.jsr107.Expect.same;
import static jentry.jcache.jsr107.Expect.thrown;
import static jentry.jcache.jsr107.Expect.yes;

import java.util.Map;
import java.util.Set;
import javax.cache.Cache;
import javax.cache.processor.EntryProcessor;
import javax.cache.processor.EntryProcessorException;
import javax.cache.processor.EntryProcessorResult;
import javax.cache.processor.MutableEntry;
import org.junit.jupiter.api.Tag;

/** Entry processors: what they see of the entry, what they leave, return and throw. */
@Tag("server")
class ProcessorTest {
    @Jsr void theEntry(Subject on) {
        Cache<Long, Long> cache = on.cache();
        long k = on.key(0);
        same(k, cache.invoke(k, new Processors.Key()));
        same(0, cache.invoke(k, new Processors.Exists()));
        none(cache.invoke(k, new Processors.Value()));
        no(cache.containsKey(k));
        cache.put(k, 5L);
        same(1, cache.invoke(k, new Processors.Exists()));
        same(5L, cache.invoke(k, new Processors.Value()));
        same(5L, cache.get(k));
    }

    @Jsr void changes(Subject on) {
        Cache<Long, Long> cache = on.cache();
        long k = on.key(0);
        same(1L, cache.invoke(k, new Processors.Sets(), 1L));
        same(1L, cache.get(k));
        same(3L, cache.invoke(k, new Processors.Adds(), 2L));
        same(3L, cache.get(k));
        same(5L, cache.invoke(k, new Processors.SetsTwice(), 4L, 5L));
        same(5L, cache.get(k));
        none(cache.invoke(k, new Processors.Removes()));
        no(cache.containsKey(k));
        none(cache.invoke(k, new Processors.Removes()));
        no(cache.containsKey(k));
        same(0, cache.invoke(k, new Processors.SetsAndRemoves(), 6L));
        no(cache.containsKey(k));
        same(1, cache.invoke(k, new Processors.RemovesAndSets(), 7L));
        same(7L, cache.get(k));
        same(0, cache.invoke(k, new Processors.SetsAndRemoves(), 8L));
        no(cache.containsKey(k));
    }

    @Jsr void resultsAndArguments(Subject on) {
        Cache<Long, Long> cache = on.cache();
        long k = on.key(0);
        none(cache.invoke(k, new Processors.Nothing()));
        same(0, cache.invoke(k, new Processors.Count()));
        same(3, cache.invoke(k, new Processors.Count(), 1L, 2, null));
        same(8, cache.invoke(k, new Processors.Count(), 1L, 2L, 3L, 4L, 5L, 6L, 7L, 8L));
        same(9L, cache.invoke(k, new Processors.First(), 9L));
        same(9, cache.invoke(k, new Processors.First(), 9));
        none(cache.invoke(k, new Processors.First(), (Object) null));
        same(Long.MIN_VALUE, cache.invoke(k, new Processors.First(), Long.MIN_VALUE));
        same(Integer.MIN_VALUE, cache.invoke(k, new Processors.First(), Integer.MIN_VALUE));
        no(cache.containsKey(k));
    }

    @Jsr void aProcessorThatThrowsChangesNothing(Subject on) {
        Cache<Long, Long> cache = on.cache();
        long k = on.key(0);
        Throwable thrown = thrown(EntryProcessorException.class, () -> cache.invoke(k, new Processors.SetsAndDivides(), 1L, 0L));
        same(ArithmeticException.class, thrown.getCause().getClass());
        no(cache.containsKey(k));
        cache.put(k, 5L);
        thrown(EntryProcessorException.class, () -> cache.invoke(k, new Processors.SetsAndDivides(), 1L, 0L));
        same(5L, cache.get(k));
        thrown(EntryProcessorException.class, () -> cache.invoke(k, new Processors.RemovesAndDivides(), 0L));
        same(5L, cache.get(k));
        same(NullPointerException.class, thrown(EntryProcessorException.class, () -> cache.invoke(on.key(1), new Processors.Divides())).getCause().getClass());
        same(ArrayIndexOutOfBoundsException.class, thrown(EntryProcessorException.class, () -> cache.invoke(k, new Processors.Adds())).getCause().getClass());
        same(ClassCastException.class, thrown(EntryProcessorException.class, () -> cache.invoke(k, new Processors.Adds(), 1)).getCause().getClass());
        same(NullPointerException.class, thrown(EntryProcessorException.class, () -> cache.invoke(k, new Processors.Sets(), (Object) null)).getCause().getClass());
        same(5L, cache.get(k));
    }

    @Jsr void invokeAll(Subject on) {
        Cache<Long, Long> cache = on.cache();
        same(Map.of(), cache.invokeAll(Set.of(), new Processors.Value()));
        same(Map.of(), cache.invokeAll(on.keys(3), new Processors.Value()));
        cache.put(on.key(0), 5L);
        Map<Long, EntryProcessorResult<Long>> values = cache.invokeAll(on.keys(3), new Processors.Value());
        same(Set.of(on.key(0)), values.keySet());
        same(5L, values.get(on.key(0)).get());
        Map<Long, EntryProcessorResult<Long>> sums = cache.invokeAll(on.keys(3), new Processors.Adds(), 2L);
        same(on.keys(3), sums.keySet());
        same(7L, sums.get(on.key(0)).get());
        same(2L, sums.get(on.key(1)).get());
        same(Map.of(on.key(0), 7L, on.key(1), 2L, on.key(2), 2L), cache.getAll(on.keys(3)));
        same(Map.of(), cache.invokeAll(on.keys(3), new Processors.Removes()));
        same(Map.of(), cache.getAll(on.keys(3)));
    }

    @Jsr void invokeAllWhereSomeThrow(Subject on) {
        Cache<Long, Long> cache = on.cache();
        cache.put(on.key(0), 5L);
        cache.put(on.key(1), 0L);
        Map<Long, EntryProcessorResult<Long>> results = cache.invokeAll(on.keys(3), new Processors.Divides());
        same(on.keys(3), results.keySet());
        same(20L, results.get(on.key(0)).get());
        same(ArithmeticException.class, thrown(EntryProcessorException.class, () -> results.get(on.key(1)).get()).getCause().getClass());
        same(NullPointerException.class, thrown(EntryProcessorException.class, () -> results.get(on.key(2)).get()).getCause().getClass());
        same(0L, cache.get(on.key(1)));
    }

    @Jsr void nulls(Subject on) {
        Cache<Long, Long> cache = on.cache();
        eachThrows(NullPointerException.class, () -> cache.invoke(null, new Processors.Value()), () -> cache.invoke(on.key(0), null),
            () -> cache.invokeAll(null, new Processors.Value()), () -> cache.invokeAll(on.keys(1), null));
    }

    @Jsr void runsOnOneKeyLoseNothing(Subject on) throws InterruptedException {
        Cache<Long, Long> cache = on.cache();
        Thread[] threads = new Thread[4];
        for (int i = 0; i < threads.length; i++) {
            threads[i] = new Thread(() -> {
                for (int n = 0; n < 25; n++) {
                    cache.invoke(on.key(0), new Processors.Adds(), 1L);
                }
            });
            threads[i].start();
        }
        for (Thread thread : threads) {
            thread.join();
        }
        same(100L, cache.get(on.key(0)));
    }

    private static final EntryProcessor<Long, Long, Object> LAMBDA = (entry, arguments) -> {
        entry.setValue(4L);
        return "a text " + arguments.length;
    };

    @Deviates("Processors")
    @Jsr void anyClassAndAnyArguments(Subject on) {
        Cache<Long, Long> cache = on.cache();
        same("a text 1", cache.invoke(on.key(0), LAMBDA, "an argument"));
        same(4L, cache.get(on.key(0)));
    }

    private static void anyProcessor(Subject on, Cache<Long, Long> cache) {
        same("a text 1", cache.invoke(on.key(0), LAMBDA, "an argument"));
        same(4L, cache.get(on.key(0)));
        same("a text 9", cache.invoke(on.key(0), LAMBDA, 1, 2, 3, 4, 5, 6, 7, 8, 9));
        long outside = on.key(3);
        same(outside, cache.<Long>invoke(on.key(1), (entry, arguments) -> outside));
        no(cache.containsKey(on.key(1)));
        EntryProcessorException own = new EntryProcessorException("own");
        same("own", thrown(EntryProcessorException.class, () -> cache.<Object>invoke(on.key(1), (entry, arguments) -> {
            entry.setValue(1L);
            throw own;
        })).getMessage());
        Throwable thrown = thrown(EntryProcessorException.class, () -> cache.<Object>invoke(on.key(1), (entry, arguments) -> {
            throw new java.io.UncheckedIOException(new java.io.IOException("checked"));
        }));
        same(java.io.UncheckedIOException.class, thrown.getCause().getClass());
        no(cache.containsKey(on.key(1)));
        yes(cache.<Boolean>invoke(on.key(1), (entry, arguments) -> entry.unwrap(MutableEntry.class) == entry));
        thrown(EntryProcessorException.class, () -> cache.<Object>invoke(on.key(1), (entry, arguments) -> entry.unwrap(String.class)));
        same(Set.of(on.key(0), on.key(1)), cache.invokeAll(on.keys(2), LAMBDA).keySet());
        same(4L, cache.get(on.key(1)));
    }

    /** With jentry.local such a processor runs in this JVM. */
    @Jsr void anyClassWhereItMayRunInThisJvm(Subject on) {
        anyProcessor(on, on.cache(it -> it, "jentry.local", "true"));
    }
}
