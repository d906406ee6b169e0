package jentry.jcache;

import static org.junit.jupiter.api.Assertions.assertEquals;
import static org.junit.jupiter.api.Assertions.assertFalse;
import static org.junit.jupiter.api.Assertions.assertThrows;

import java.util.List;
import java.util.Map;
import java.util.Set;
import java.util.concurrent.CompletionException;
import javax.cache.processor.EntryProcessorException;
import javax.cache.processor.EntryProcessorResult;
import org.junit.jupiter.api.Test;

/** Tests the exceptions that processors throw themselves, on the real server. */
class ThrowsTest extends OnServer {
    /** Redis doesn't tell an ArithmeticException without a text from that of a division. */
    private static final List<Thrown> TOLD_APART =
        Thrown.ALL.stream().filter(it -> !Server.isRedis() || it.number() != 1 || it.text() != null).toList();
    private final Throwing throwing = new Throwing();

    @Test void invokeThrowsThem() {
        for (Thrown it : TOLD_APART) {
            it.isThrownBy(() -> cache.invoke(k, throwing, it.argument()));
        }
        new Thrown(0, 1, ArithmeticException.class, Throwing.ARITHMETIC).isThrownBy(() -> cache.invoke(k, throwing, 5_000_000_001L));
        assertFalse(cache.containsKey(k), "a run that throws makes no entry");
        assertEquals(3L, cache.invoke(k, throwing, 3L));
        assertEquals(77L, cache.get(k));
    }

    @Test void theEntryIsAsItWas() {
        cache.put(k, 5L);
        for (Thrown it : Thrown.ALL) {
            assertThrows(EntryProcessorException.class, () -> cache.invoke(k, throwing, it.argument()));
            assertEquals(5L, cache.get(k));
        }
    }

    @Test void resultsOfInvokeAllThrowThem() {
        for (Thrown it : TOLD_APART) {
            Map<Long, EntryProcessorResult<Long>> results = cache.invokeAll(Set.of(k, k + 1), throwing, it.argument());
            assertEquals(Set.of(k, k + 1), results.keySet());
            results.values().forEach(result -> it.isThrownBy(result::get));
        }
        assertFalse(cache.containsKey(k));
    }

    @Test void futuresHaveThem() {
        for (Thrown it : TOLD_APART) {
            var future = server.own().invokeAsync(k, throwing, it.argument());
            it.is(assertThrows(CompletionException.class, future::join).getCause());
        }
    }
}
