package jentry.jcache;

import static org.junit.jupiter.api.Assertions.assertEquals;
import static org.junit.jupiter.api.Assertions.assertNull;
import static org.junit.jupiter.api.Assertions.assertTrue;

import java.util.ArrayList;
import java.util.HashMap;
import java.util.List;
import java.util.Map;
import java.util.Set;
import java.util.TreeSet;
import java.util.concurrent.CompletableFuture;
import java.util.concurrent.ConcurrentSkipListSet;
import java.util.concurrent.atomic.AtomicInteger;
import java.util.concurrent.atomic.AtomicLong;
import java.util.stream.Collectors;
import java.util.stream.LongStream;
import org.junit.jupiter.api.Test;

/** Tests many threads on one stream of the real server. */
class LineTest extends OnServer {
    private static final int THREADS = 64;

    private static Set<Long> oneTo(long n) {
        return LongStream.rangeClosed(1, n).boxed().collect(Collectors.toCollection(TreeSet::new));
    }

    @Test void everyResultOnOneKeyIsToldOnce() throws InterruptedException {
        Set<Long> told = new ConcurrentSkipListSet<>();
        Team.of(THREADS, t -> {
            long last = 0;
            for (int i = 0; i < 100; i++) {
                long after = cache.invoke(k, new Sample.Add(), 1L);
                assertTrue(after > last, "a thread's own results rise");
                assertTrue(told.add(after), "told twice: " + after);
                last = after;
            }
        }).join();
        assertEquals(oneTo(THREADS * 100), told);
        assertEquals(THREADS * 100L, cache.get(k));
    }

    @Test void eachThreadGetsWhatItPut() throws InterruptedException {
        Team.of(THREADS, t -> {
            long own = server.key(1_000 + t);
            for (long i = 0; i < 100; i++) {
                cache.put(own, i);
                assertEquals(i, cache.get(own));
            }
        }).join();
    }

    @Test void bulkCallsBesideSingleOnes() throws InterruptedException {
        Team.of(16, t -> {
            long from = 10_000L * (t + 1);
            Map<Long, Long> entries = new HashMap<>();
            server.keys(from, from + 3_000).forEach(key -> entries.put(key, (long) t));
            for (int i = 0; i < 3; i++) {
                if (t % 2 == 0) {
                    cache.putAll(entries);
                    assertEquals(entries, cache.getAll(entries.keySet()));
                    cache.removeAll(entries.keySet());
                    assertEquals(Map.of(), cache.getAll(entries.keySet()));
                } else {
                    for (int n = 0; n < 100; n++) {
                        cache.invoke(k, new Sample.Add(), 1L);
                    }
                }
            }
        }).join();
        assertEquals(8 * 3 * 100L, cache.get(k));
    }

    @Test void tenThousandAsynchronousCalls() {
        List<CompletableFuture<Long>> futures = new ArrayList<>();
        for (int i = 0; i < 10_000; i++) {
            futures.add(server.own().invokeAsync(k, new Sample.Add(), 1L));
        }
        assertEquals(oneTo(10_000), futures.stream().map(CompletableFuture::join).collect(Collectors.toCollection(TreeSet::new)));
    }

    @Test void asynchronousCallsBesideWaitingOnes() throws InterruptedException {
        Set<Long> told = new ConcurrentSkipListSet<>();
        Team.of(8, t -> {
            List<CompletableFuture<Long>> futures = new ArrayList<>();
            for (int i = 0; i < 200; i++) {
                futures.add(server.own().invokeAsync(k, new Sample.Add(), 1L));
                told.add(cache.invoke(k, new Sample.Add(), 1L));
            }
            futures.forEach(it -> told.add(it.join()));
        }).join();
        assertEquals(oneTo(8 * 400), told);
    }

    @Test void anInterruptedThreadGetsItsReplyAndStaysInterrupted() throws InterruptedException {
        for (int i = 0; i < 20; i++) {
            Team team = Team.of(4, t -> {
                Thread.currentThread().interrupt();
                for (int n = 0; n < 20; n++) {
                    cache.invoke(k, new Sample.Add(), 1L);
                    assertTrue(Thread.currentThread().isInterrupted(), "still interrupted");
                }
            });
            team.threads().forEach(Thread::interrupt);
            team.join();
        }
        assertEquals(20 * 4 * 20L, cache.get(k));
    }

    @Test void aClassThatManyUseAtOnceIsDefinedOnce() throws InterruptedException {
        Set<Long> told = new ConcurrentSkipListSet<>();
        Team.of(THREADS, t -> told.add(cache.invoke(k, new Sample.Add(), 1L))).join();
        assertEquals(oneTo(THREADS), told);
    }

    @Test void onePutIfAbsentWins() throws InterruptedException {
        AtomicInteger won = new AtomicInteger();
        AtomicLong winner = new AtomicLong();
        Team.of(THREADS, t -> {
            if (cache.putIfAbsent(k, (long) t)) {
                won.incrementAndGet();
                winner.set(t);
            }
        }).join();
        assertEquals(1, won.get());
        assertEquals(winner.get(), cache.get(k));
    }

    @Test void replaceWhereOldCountsExactly() throws InterruptedException {
        cache.put(k, 0L);
        Team.of(16, t -> {
            for (int done = 0; done < 20;) {
                long before = cache.get(k);
                done += cache.replace(k, before, before + 1) ? 1 : 0;
            }
        }).join();
        assertEquals(16 * 20L, cache.get(k));
    }

    @Test void getAndPutAndGetAndReplaceHandOnEachValueOnce() throws InterruptedException {
        cache.put(k, 0L);
        Set<Long> seen = new ConcurrentSkipListSet<>();
        Team.of(THREADS, t -> {
            for (long i = 1; i <= 20; i++) {
                long mine = t * 20L + i;
                assertTrue(seen.add(i % 2 == 0 ? cache.getAndPut(k, mine) : cache.getAndReplace(k, mine)), "handed on twice");
            }
        }).join();
        assertTrue(seen.add(cache.get(k)));
        Set<Long> all = oneTo(THREADS * 20);
        all.add(0L);
        assertEquals(all, seen);
    }

    @Test void eachEntryIsTakenOnce() throws InterruptedException {
        cache.putAll(server.keys(0, 200).stream().collect(Collectors.toMap(key -> key, key -> 7L)));
        AtomicInteger taken = new AtomicInteger();
        Team.of(16, t -> {
            for (long n = 0; n < 200; n++) {
                boolean took = t % 2 == 0 ? cache.getAndRemove(server.key(n)) != null : cache.remove(server.key(n), 7L);
                taken.addAndGet(took ? 1 : 0);
            }
        }).join();
        assertEquals(200, taken.get());
        assertNull(cache.get(server.key(0)));
    }
}
