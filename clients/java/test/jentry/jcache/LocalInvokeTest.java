package jentry.jcache;

import static org.junit.jupiter.api.Assertions.assertEquals;
import static org.junit.jupiter.api.Assertions.assertFalse;
import static org.junit.jupiter.api.Assertions.assertNull;
import static org.junit.jupiter.api.Assertions.assertThrows;
import static org.junit.jupiter.api.Assertions.assertTrue;

import java.util.Map;
import java.util.Set;
import java.util.concurrent.atomic.AtomicInteger;
import java.util.concurrent.atomic.AtomicLong;
import javax.cache.Cache;
import javax.cache.CacheException;
import javax.cache.processor.EntryProcessor;
import javax.cache.processor.EntryProcessorException;
import javax.cache.processor.EntryProcessorResult;
import org.junit.jupiter.api.BeforeEach;
import org.junit.jupiter.api.Test;

/** Tests processors that the server refuses: the call fails, or the processor runs in this JVM if jentry.local is true. */
class LocalInvokeTest extends OnServer {
    private Cache<Long, Long> local;

    @BeforeEach void create() {
        local = create(Server.types(), "jentry.local", "true");
    }

    private static EntryProcessor<Long, Long, Object> setting(Object value) {
        return (entry, arguments) -> {
            entry.setValue((Long) value);
            return entry.getValue();
        };
    }

    @Test void withoutThePropertyNothingRunsHere() {
        assertThrows(CacheException.class, () -> cache.invoke(k, setting(1L)));
        assertThrows(ProcessorRefusedException.class, () -> cache.invoke(k, new Sample.Loops()));
        assertThrows(IllegalArgumentException.class, () -> cache.invoke(k, new Sample.Add(), "x"));
        assertFalse(cache.containsKey(k));
        assertEquals(Map.of(), server.own().localRuns());
    }

    @Test void lambdasLoopsStringsAndManyArguments() {
        assertEquals(5L, local.invoke(k, setting(5L)));
        assertEquals(5L, local.get(k));
        assertEquals(28L, local.invoke(k, new Sample.Loops()));
        assertEquals("5 and text", local.<String>invoke(k, (entry, arguments) -> entry.getValue() + " and " + arguments[0], "text"));
        assertEquals(9, local.<Integer>invoke(k, (entry, arguments) -> arguments.length, 1L, 2L, 3L, 4L, 5L, 6L, 7L, 8L, 9L));
        assertEquals(k, local.<Long>invoke(k, (entry, arguments) -> entry.getKey()));
    }

    @Test void whatTheServerTakesRunsThere() {
        assertEquals(4L, local.invoke(k, new Sample.Add(), 4L));
        assertEquals(Map.of(), local.unwrap(JentryCache.class).localRuns());
        local.invoke(k, new Sample.Loops());
        local.invoke(k, new Sample.Loops());
        assertEquals(Map.of(Sample.Loops.class.getName(), 2L), local.unwrap(JentryCache.class).localRuns());
    }

    @Test void entriesThatAreMadeReplacedRemovedAndLeft() {
        assertNull(local.<Object>invoke(k, (entry, arguments) -> entry.getValue()));
        assertFalse(local.containsKey(k));
        local.invoke(k, setting(1L));
        local.invoke(k, setting(2L));
        assertEquals(2L, local.get(k));
        assertEquals(false, local.<Boolean>invoke(k, (entry, arguments) -> {
            entry.remove();
            return entry.exists();
        }));
        assertFalse(local.containsKey(k));
        local.<Object>invoke(k, (entry, arguments) -> {
            entry.setValue(1L);
            entry.remove();
            return null;
        });
        assertFalse(local.containsKey(k));
        local.<Object>invoke(k, (entry, arguments) -> {
            entry.remove();
            entry.setValue(3L);
            return null;
        });
        assertEquals(3L, local.get(k));
    }

    @Test void whatThrowsLeavesTheEntry() {
        local.put(k, 1L);
        Throwable cause = assertThrows(EntryProcessorException.class, () -> local.<Object>invoke(k, (entry, arguments) -> {
            entry.setValue(2L);
            throw new IllegalStateException("unwilling");
        })).getCause();
        assertEquals("unwilling", cause.getMessage());
        assertEquals(1L, local.get(k));
    }

    @Test void invokeAllAndInvokeAsync() {
        Map<Long, EntryProcessorResult<Object>> results = local.invokeAll(Set.of(k, k + 1), (entry, arguments) -> {
            if (entry.getKey() == k) {
                throw new IllegalStateException("unwilling");
            }
            entry.setValue(4L);
            return 5L;
        });
        assertEquals(5L, results.get(k + 1).get());
        assertEquals("unwilling", assertThrows(EntryProcessorException.class, () -> results.get(k).get()).getCause().getMessage());
        assertEquals(4L, local.get(k + 1));
        assertEquals(6L, local.unwrap(JentryCache.class).invokeAsync(k, setting(6L)).join());
    }

    @Test void contendedRunsLoseNoChange() throws InterruptedException {
        Cache<Long, Long> second = create(Server.types(), "jentry.local", "true");
        boolean isOne = Server.isShared();
        AtomicInteger runs = new AtomicInteger();
        EntryProcessor<Long, Long, Object> plus = (entry, arguments) -> {
            runs.incrementAndGet();
            entry.setValue((entry.exists() ? entry.getValue() : 0L) + 1);
            return null;
        };
        int each = Integer.getInteger("jentry.test.local", 300);
        Team.of(6, t -> {
            Cache<Long, Long> by = isOne && t % 2 == 1 ? second : local;
            for (int i = 0; i < each; i++) {
                if (t < 4) {
                    by.invoke(k, plus);
                } else {
                    by.invoke(k, new Sample.Add(), 1L);
                }
            }
        }).join();
        assertEquals(6L * each, local.get(k));
        assertTrue(runs.get() >= 4 * each, runs + " runs");
    }

    @Test void whatIsRefusedIsAskedOnce() {
        local.invoke(k, new Sample.Loops());
        AtomicLong before = new AtomicLong(local.unwrap(JentryCache.class).store().sent());
        local.invoke(k, new Sample.Loops());
        assertEquals(1, local.unwrap(JentryCache.class).store().sent() - before.get(), "the read of the entry, and no definition");
    }

    @Test void aProcessorThatCallsTheCacheOnAnotherKey() {
        assertEquals(7L, local.<Long>invoke(k, (entry, arguments) -> {
            local.put(k + 64, 7L);
            return local.<Long>invoke(k + 64, (other, none) -> other.getValue());
        }));
    }
}
