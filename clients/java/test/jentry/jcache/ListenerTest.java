package jentry.jcache;

import static org.junit.jupiter.api.Assertions.assertEquals;
import static org.junit.jupiter.api.Assertions.assertFalse;
import static org.junit.jupiter.api.Assertions.assertThrows;
import static org.junit.jupiter.api.Assertions.assertTrue;

import java.util.Collections;
import java.util.List;
import java.util.Map;
import java.util.Set;
import java.util.concurrent.CountDownLatch;
import java.util.concurrent.TimeUnit;
import java.util.concurrent.atomic.AtomicReference;
import javax.cache.Cache;
import javax.cache.configuration.CacheEntryListenerConfiguration;
import javax.cache.configuration.MutableCacheEntryListenerConfiguration;
import javax.cache.event.CacheEntryCreatedListener;
import javax.cache.event.CacheEntryListenerException;
import org.junit.jupiter.api.Test;

/** Tests listeners to the changes that a cache object makes. */
class ListenerTest extends OnServer {
    private final Heard heard = new Heard(0);

    private Heard listen(boolean wantsOld, boolean isSynchronous) {
        Heard it = new Heard(k);
        cache.registerCacheEntryListener(it.by(wantsOld, isSynchronous));
        return it;
    }

    @Test void everyChangeOfOneKey() {
        Heard it = listen(true, true);
        cache.put(k, 1L);
        cache.put(k, 2L);
        cache.getAndPut(k, 3L);
        cache.putIfAbsent(k, 4L);
        cache.replace(k, 5L);
        cache.getAndReplace(k, 6L);
        cache.replace(k, 6L, 7L);
        cache.replace(k, 6L, 8L);
        cache.remove(k, 6L);
        cache.remove(k, 7L);
        cache.putIfAbsent(k, 9L);
        cache.getAndRemove(k);
        cache.remove(k);
        cache.getAndRemove(k);
        cache.put(k, 10L);
        cache.remove(k);
        assertEquals(List.of("CREATED 0 1 null", "UPDATED 0 2 1", "UPDATED 0 3 2", "UPDATED 0 5 3", "UPDATED 0 6 5",
            "UPDATED 0 7 6", "REMOVED 0 7 7", "CREATED 0 9 null", "REMOVED 0 9 9", "CREATED 0 10 null", "REMOVED 0 10 10"), it.all);
        assertEquals(Set.of(Thread.currentThread()), Set.copyOf(it.threads), "synchronous: in the caller's thread");
    }

    @Test void bulkMethods() {
        cache.put(k, 1L);
        Heard it = listen(true, true);
        cache.putAll(Map.of(k, 2L, k + 1, 3L));
        assertEquals(Set.of("UPDATED 0 2 1", "CREATED 1 3 null"), Set.copyOf(it.all));
        it.all.clear();
        cache.removeAll(Set.of(k, k + 1, k + 2));
        assertEquals(Set.of("REMOVED 0 2 2", "REMOVED 1 3 3"), Set.copyOf(it.all));
    }

    @Test void processors() {
        Heard it = listen(true, true);
        cache.invoke(k, new Sample.Add(), 4L);
        cache.invoke(k, new Sample.Add(), 2L);
        cache.invoke(k, new Sample.Value());
        cache.invoke(k, new Sample.Removes());
        cache.invoke(k, new Sample.Removes());
        assertEquals(List.of("CREATED 0 4 null", "UPDATED 0 6 4", "REMOVED 0 6 6"), it.all);
    }

    @Test void aValueThatIsThereIsUpdatedAllTheSame() {
        cache.put(k, 5L);
        Heard it = listen(true, true);
        cache.put(k, 5L);
        cache.getAndPut(k, 5L);
        assertTrue(cache.replace(k, 5L, 5L));
        cache.replace(k, 5L);
        cache.getAndReplace(k, 5L);
        cache.putAll(Map.of(k, 5L));
        assertEquals(Collections.nCopies(6, "UPDATED 0 5 5"), it.all);
        it.all.clear();
        cache.invoke(k, new Sample.Sets(), 5L);
        cache.invokeAll(Set.of(k), new Sample.Add(), 0L);
        server.own().invokeAsync(k, new Sample.Sets(), 5L).join();
        cache.invoke(k, new Sample.Value());
        assertEquals(Collections.nCopies(3, "UPDATED 0 5 5"), it.all);
    }

    @Test void runsInThisJvm() {
        Cache<Long, Long> local = create(Server.types(), "jentry.local", "true");
        Heard it = new Heard(k);
        local.registerCacheEntryListener(it.by(true, true));
        for (long value : new long[] {1, 2}) {
            local.<Object>invoke(k, (entry, arguments) -> {
                entry.setValue(value);
                return null;
            });
        }
        local.<Object>invoke(k, (entry, arguments) -> entry.getValue());
        local.<Object>invoke(k, (entry, arguments) -> {
            entry.remove();
            return null;
        });
        assertEquals(List.of("CREATED 0 1 null", "UPDATED 0 2 1", "REMOVED 0 2 2"), it.all);
    }

    @Test void withoutTheOldValueWhereItIsNotRequired() {
        Heard it = listen(false, true);
        cache.put(k, 1L);
        cache.put(k, 2L);
        assertEquals(List.of("CREATED 0 1 null", "UPDATED 0 2 null"), it.all);
    }

    @Test void asynchronousListenersHearInAThreadOfTheCacheAndInItsOrder() throws InterruptedException {
        Heard it = listen(false, false);
        for (long i = 0; i < 50; i++) {
            cache.put(k, i);
        }
        await(() -> it.all.size() == 50);
        assertEquals("CREATED 0 0 null", it.all.get(0));
        for (int i = 1; i < 50; i++) {
            assertEquals("UPDATED 0 " + i + " null", it.all.get(i));
        }
        assertEquals(1, Set.copyOf(it.threads).size());
        assertFalse(it.threads.contains(Thread.currentThread()));
    }

    interface Condition {
        boolean holds();
    }

    private static void await(Condition condition) throws InterruptedException {
        for (int i = 0; !condition.holds(); i++) {
            assertTrue(i < 30_000, "what was awaited didn't come");
            Thread.sleep(1);
        }
    }

    @Test void aFilter() {
        cache.registerCacheEntryListener(
            new MutableCacheEntryListenerConfiguration<>(() -> heard, () -> event -> event.getValue() > 1, false, true));
        cache.put(k, 1L);
        cache.put(k, 2L);
        assertEquals(List.of("UPDATED " + k + " 2 null"), heard.all);
    }

    private static CacheEntryListenerConfiguration<Long, Long> created(boolean isSynchronous,
        CacheEntryCreatedListener<Long, Long> listener) {
        return new MutableCacheEntryListenerConfiguration<>(() -> listener, null, false, isSynchronous);
    }

    @Test void aSynchronousListenerThatThrowsReachesTheCallerBehindTheChangeAndTheOtherListeners() {
        cache.registerCacheEntryListener(created(true, events -> {
            throw new IllegalStateException("unwilling");
        }));
        Heard it = listen(false, true);
        Throwable cause = assertThrows(CacheEntryListenerException.class, () -> cache.put(k, 1L)).getCause();
        assertEquals("unwilling", cause.getMessage());
        assertEquals(1L, cache.get(k));
        assertEquals(List.of("CREATED 0 1 null"), it.all);
    }

    @Test void anAsynchronousListenerThatThrowsIsHeardOfByNobody() throws InterruptedException {
        cache.registerCacheEntryListener(created(false, events -> {
            throw new IllegalStateException("unwilling");
        }));
        Heard it = listen(false, false);
        cache.put(k, 1L);
        cache.put(k + 1, 1L);
        await(() -> it.all.size() == 2);
    }

    @Test void anAsynchronousListenerThatBlocksHoldsUpNoCallAndNoClose() throws InterruptedException {
        CountDownLatch began = new CountDownLatch(1), never = new CountDownLatch(1);
        AtomicReference<Thread> thread = new AtomicReference<>();
        cache.registerCacheEntryListener(created(false, events -> {
            thread.set(Thread.currentThread());
            began.countDown();
            try {
                never.await();
            } catch (InterruptedException e) {
                Thread.currentThread().interrupt();
            }
        }));
        cache.put(k, 1L);
        assertTrue(began.await(30, TimeUnit.SECONDS));
        cache.put(k + 1, 1L);
        assertEquals(1L, cache.get(k + 1));
        long from = System.nanoTime();
        cache.close();
        assertTrue(System.nanoTime() - from < TimeUnit.SECONDS.toNanos(30));
        thread.get().join(30_000);
        assertFalse(thread.get().isAlive());
    }

    @Test void aListenerThatDeregistersItself() {
        AtomicReference<CacheEntryListenerConfiguration<Long, Long>> own = new AtomicReference<>();
        heard.all.clear();
        own.set(created(true, events -> {
            heard.all.add("once");
            cache.deregisterCacheEntryListener(own.get());
        }));
        cache.registerCacheEntryListener(own.get());
        Heard it = listen(false, true);
        cache.put(k, 1L);
        cache.put(k + 1, 1L);
        assertEquals(List.of("once"), heard.all);
        assertEquals(2, it.all.size());
    }

    @Test void aListenerThatUsesTheCache() {
        cache.registerCacheEntryListener(created(true, events -> events.forEach(it -> {
            if (it.getKey() == k) {
                cache.put(k + 1, cache.get(k) + 1);
            }
        })));
        cache.put(k, 1L);
        assertEquals(2L, cache.get(k + 1));
    }

    @Test void registering() {
        Heard it = new Heard(k);
        CacheEntryListenerConfiguration<Long, Long> by = it.by(false, true);
        cache.registerCacheEntryListener(by);
        assertThrows(IllegalArgumentException.class, () -> cache.registerCacheEntryListener(by));
        cache.deregisterCacheEntryListener(by);
        assertTrue(it.isClosed);
        cache.put(k, 1L);
        assertEquals(List.of(), it.all);
        assertThrows(NullPointerException.class, () -> cache.registerCacheEntryListener(null));
        assertThrows(NullPointerException.class, () -> cache.deregisterCacheEntryListener(null));
    }

    @Test void aListenerOfTheConfigurationIsClosedWithTheCache() {
        Heard it = new Heard(k);
        Cache<Long, Long> made = create(Server.types().addCacheEntryListenerConfiguration(it.by(false, true)));
        made.put(k, 1L);
        assertEquals(List.of("CREATED 0 1 null"), it.all);
        made.close();
        assertTrue(it.isClosed);
    }
}
