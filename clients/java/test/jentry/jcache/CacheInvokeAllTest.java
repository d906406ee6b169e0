package jentry.jcache;

import static org.junit.jupiter.api.Assertions.assertEquals;
import static org.junit.jupiter.api.Assertions.assertFalse;
import static org.junit.jupiter.api.Assertions.assertThrows;
import static org.junit.jupiter.api.Assertions.assertTrue;

import java.util.Arrays;
import java.util.HashSet;
import java.util.Map;
import java.util.Set;
import javax.cache.processor.EntryProcessor;
import javax.cache.processor.EntryProcessorException;
import javax.cache.processor.EntryProcessorResult;
import org.junit.jupiter.api.Test;

/** Tests what invokeAll accepts, returns and throws, on the real server. */
class CacheInvokeAllTest extends OnServer {
    @Test void invokeAllAnswersByKey() {
        long one = server.key(1), zero = server.key(2), twenty = server.key(3), none = server.key(4);
        cache.putAll(Map.of(one, 1L, zero, 0L, twenty, 20L));
        Map<Long, EntryProcessorResult<Long>> results = cache.invokeAll(Set.of(one, zero, twenty, none), new Sample.Divides());
        assertEquals(Set.of(zero, twenty, none), results.keySet());
        assertEquals(5L, results.get(twenty).get());
        assertEquals(ArithmeticException.class, assertThrows(EntryProcessorException.class, () -> results.get(zero).get()).getCause().getClass());
        assertEquals(NullPointerException.class, assertThrows(EntryProcessorException.class, () -> results.get(none).get()).getCause().getClass());
        assertEquals(Map.of(one, 77L, zero, 0L, twenty, 77L), cache.getAll(Set.of(one, zero, twenty, none)));
    }

    @Test void invokeAllOfManyKeys() {
        Map<Long, EntryProcessorResult<Long>> results = cache.invokeAll(server.keys(0, 9_000), new Sample.Add(), 3L);
        assertEquals(server.keys(0, 9_000), results.keySet());
        results.values().forEach(it -> assertEquals(3L, it.get()));
        assertEquals(3L, cache.get(server.key(8_999)));
    }

    private Throwable causeOf(EntryProcessor<Long, Long, ?> processor, Object... arguments) {
        EntryProcessorResult<?> result = cache.invokeAll(Set.of(k), processor, arguments).get(k);
        Throwable cause = assertThrows(EntryProcessorException.class, result::get).getCause();
        assertEquals(cause.getClass(), assertThrows(EntryProcessorException.class, result::get).getCause().getClass(), "each get throws");
        assertTrue(cause.getMessage().contains(processor.getClass().getName()), cause.getMessage());
        return cause;
    }

    @Test void exceptionsOfProcessorsAreThrownByTheResultsOfTheirKeys() {
        assertEquals(NullPointerException.class, causeOf(new Sample.Divides()).getClass());
        cache.put(k, 0L);
        assertEquals(ArithmeticException.class, causeOf(new Sample.Divides()).getClass());
        assertEquals(ArrayIndexOutOfBoundsException.class, causeOf(new Sample.Add()).getClass());
        assertEquals(ClassCastException.class, causeOf(new Sample.Add(), 1).getClass());
        assertEquals(0L, cache.get(k));
    }

    @Test void keysWithNullAreLeftOut() {
        cache.put(k, 5L);
        assertEquals(Map.of(), cache.invokeAll(Set.of(k, k + 1), new Sample.Removes()));
        assertFalse(cache.containsKey(k));
    }

    @Test void booleansByKey() {
        long low = server.key(1), high = server.key(2), none = server.key(3);
        cache.putAll(Map.of(low, 1L, high, 9L));
        Map<Long, EntryProcessorResult<Boolean>> results = cache.invokeAll(Set.of(low, high, none), new Sample.Lowers(), 5L, true);
        assertEquals(Set.of(low, high), results.keySet());
        assertEquals(false, results.get(low).get());
        assertEquals(true, results.get(high).get());
        assertEquals(Map.of(low, 1L, high, 5L), cache.getAll(Set.of(low, high, none)));
    }

    @Test void aClassThatIsRefusedRunsOnNoKey() {
        cache.put(k, 5L);
        assertThrows(ProcessorRefusedException.class, () -> cache.invokeAll(Set.of(k, k + 1), new Sample.Loops()));
        assertEquals(Map.of(k, 5L), cache.getAll(Set.of(k, k + 1)));
    }

    @Test void nullsAndClosed() {
        Set<Long> withNull = new HashSet<>(Arrays.asList(k, null));
        assertThrows(NullPointerException.class, () -> cache.invokeAll(null, new Sample.Key()));
        assertThrows(NullPointerException.class, () -> cache.invokeAll(withNull, new Sample.Add(), 1L));
        assertThrows(NullPointerException.class, () -> cache.invokeAll(Set.of(k), null));
        assertFalse(cache.containsKey(k));
        cache.close();
        assertThrows(IllegalStateException.class, () -> cache.invokeAll(Set.of(k), new Sample.Key()));
    }
}
