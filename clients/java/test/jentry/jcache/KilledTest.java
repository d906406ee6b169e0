package jentry.jcache;

import static org.junit.jupiter.api.Assertions.assertEquals;
import static org.junit.jupiter.api.Assertions.assertNull;
import static org.junit.jupiter.api.Assertions.assertThrows;
import static org.junit.jupiter.api.Assertions.assertTrue;
import static org.junit.jupiter.api.Assumptions.assumeFalse;

import java.util.concurrent.atomic.AtomicLong;
import javax.cache.Cache;
import javax.cache.CacheException;
import jentry.jcache.stream.StreamStore;
import org.junit.jupiter.api.Test;

/** Kills the real server, a child process, in the middle of a round that takes seconds. */
class KilledTest extends OnServer {
    private static String failure(Runnable call) {
        return assertThrows(CacheException.class, call::run).getMessage();
    }

    private static void await(StreamStore line, long rounds, int waiting) throws InterruptedException {
        for (int i = 0; line.sent() != rounds || line.waiting() != waiting; i++) {
            assertTrue(i < 30_000, line.sent() + " rounds, " + line.waiting() + " calls wait");
            Thread.sleep(1);
        }
    }

    private long[] killed() throws Exception {
        if (cache.isClosed()) {
            cache = server.manager.createCache("test", Server.types());
        }
        cache.put(k, 1L);
        cache.invoke(k, new Sample.Heavy());
        StreamStore line = (StreamStore) cache.unwrap(JentryCache.class).store();
        long before = line.sent();
        AtomicLong last = new AtomicLong();
        Team out = Team.of(1, t -> {
            String message = failure(() -> cache.invokeAll(server.keys(0, 1_024), new Sample.Heavy()));
            last.accumulateAndGet(System.nanoTime(), Math::max);
            assertTrue(message.endsWith("whether this call has run is not known"), message);
        });
        await(line, before + 1, 0);
        Team waits = Team.of(8, t -> {
            String message = failure(() -> cache.put(k, 2L));
            last.accumulateAndGet(System.nanoTime(), Math::max);
            assertTrue(message.endsWith("this call was not sent"), message);
        });
        await(line, before + 1, 8);
        long from = System.nanoTime();
        ProcessHandle.current().children().filter(ProcessHandle::isAlive).forEach(ProcessHandle::destroyForcibly);
        out.join();
        waits.join();
        assertEquals(before + 1, line.sent(), "nothing was sent any more");
        assertNull(cache.get(k), "a new child without the entries");
        assertEquals(5L, cache.invoke(k, new Sample.Add(), 5L), "it gets the class too");
        cache.close();
        return new long[] {from, last.get()};
    }

    @Test void everyCallEndsByAnExceptionAndTheNameIsFreeForAnother() throws Exception {
        assumeFalse(Server.isShared());
        Soon.within(this::killed);
        Cache<Long, Long> again = server.manager.createCache("test", Server.types());
        assertNull(again.get(k));
        again.put(k, 3L);
        assertEquals(3L, again.get(k));
    }
}
