package jentry.jcache;

import static org.junit.jupiter.api.Assertions.assertEquals;
import static org.junit.jupiter.api.Assertions.assertFalse;
import static org.junit.jupiter.api.Assertions.assertNull;
import static org.junit.jupiter.api.Assertions.assertThrows;
import static org.junit.jupiter.api.Assertions.assertTrue;

import java.util.List;
import java.util.Set;
import java.util.concurrent.CompletionException;
import javax.cache.CacheException;
import javax.cache.processor.EntryProcessor;
import javax.cache.processor.EntryProcessorException;
import org.junit.jupiter.api.Test;

/** Tests what invoke and invokeAsync accept, return and throw, on the real server. */
class CacheInvokeTest extends OnServer {
    @Test void argumentsAndResults() {
        assertEquals(5L, cache.invoke(k, new Sample.Add(), 5L));
        assertEquals(-2L, cache.invoke(k, new Sample.Add(), -7L));
        assertEquals(-2L, cache.get(k));
        assertEquals(k, cache.invoke(k, new Sample.Key()));
        for (Object argument : new Object[] {1L, -1, Long.MIN_VALUE, Integer.MIN_VALUE, null}) {
            assertEquals(argument, cache.invoke(k, new Sample.First(), argument, 3L));
        }
        assertEquals(8, cache.invoke(k, new Sample.Count(), 1L, 2, null, 4L, 5L, 6L, 7L, 8L));
        assertEquals(0, cache.invoke(k, new Sample.Count()));
        assertEquals(0, cache.invoke(k, new Sample.Count(), (Object[]) null));
        assertNull(cache.invoke(k, new Sample.Removes()));
        assertFalse(cache.containsKey(k));
    }

    @Test void resultsAreLongIntegerNumberOrObject() {
        Long ofLong = cache.invoke(k, new Sample.Key());
        Integer ofInteger = cache.invoke(k, new Sample.Count(), 1L, 2L);
        Object ofObject = cache.invoke(k, new Sample.First(), 3);
        Number ofNumber = cache.invoke(k, new Sample.Half(), 9L);
        assertEquals(List.of(k, 2, 3, 4L), List.of(ofLong, ofInteger, ofObject, ofNumber));
        assertEquals(4, cache.invoke(k, new Sample.Half(), 9));
    }

    @Test void booleansAreArgumentsAndResults() {
        assertEquals(true, cache.invoke(k, new Sample.First(), true));
        assertEquals(false, cache.invoke(k, new Sample.First(), false, 1L));
        assertNull(cache.invoke(k, new Sample.Lowers(), 5L, true));
        cache.put(k, 7L);
        Boolean isAbove = cache.invoke(k, new Sample.Lowers(), 8L, true);
        boolean isBelow = cache.invoke(k, new Sample.Lowers(), 5L, false);
        assertEquals(List.of(false, true, 7L), List.of(isAbove, isBelow, cache.get(k)));
        assertEquals(true, server.own().invokeAsync(k, new Sample.Lowers(), 5L, true).join());
        assertEquals(5L, cache.get(k));
        assertEquals(ClassCastException.class, causeOf(new Sample.Lowers(), 4L, 1).getClass());
        assertEquals(ClassCastException.class, causeOf(new Sample.Add(), true).getClass());
        assertEquals(NullPointerException.class, causeOf(new Sample.Lowers(), 4L, null).getClass());
        assertEquals(5L, cache.get(k));
    }

    @Test void argumentsThatCannotBeSent() {
        assertThrows(IllegalArgumentException.class, () -> cache.invoke(k, new Sample.Add(), "text"));
        assertThrows(IllegalArgumentException.class, () -> cache.invoke(k, new Sample.Count(), 1L, 2L, 3L, 4L, 5L, 6L, 7L, 8L, 9L));
        assertThrows(IllegalArgumentException.class, () -> cache.invokeAll(Set.of(k), new Sample.Add(), 1.5));
        assertFalse(cache.containsKey(k));
    }

    private Throwable causeOf(EntryProcessor<Long, Long, ?> processor, Object... arguments) {
        Throwable cause = assertThrows(EntryProcessorException.class, () -> cache.invoke(k, processor, arguments)).getCause();
        assertTrue(cause.getMessage().contains(processor.getClass().getName()), cause.getMessage());
        return cause;
    }

    @Test void exceptionsOfProcessors() {
        assertEquals(NullPointerException.class, causeOf(new Sample.Divides()).getClass());
        cache.put(k, 0L);
        assertEquals(ArithmeticException.class, causeOf(new Sample.Divides()).getClass());
        assertEquals(ArrayIndexOutOfBoundsException.class, causeOf(new Sample.Add()).getClass());
        assertEquals(ClassCastException.class, causeOf(new Sample.Add(), 1).getClass());
        assertEquals(0L, cache.get(k));
    }

    @Test void whatAProcessorThatThrewHadChangedIsUndone() {
        cache.put(k, 0L);
        causeOf(new Sample.RemovesAndThrows());
        assertEquals(0L, cache.get(k));
        cache.remove(k);
        causeOf(new Sample.PutsAndThrows());
        assertFalse(cache.containsKey(k));
    }

    @Test void whatAProcessorSees() {
        assertEquals(0, cache.invoke(k, new Sample.Exists()));
        assertNull(cache.invoke(k, new Sample.Value()));
        assertFalse(cache.containsKey(k), "who looks makes no entry");
        cache.put(k, 5L);
        assertEquals(1, cache.invoke(k, new Sample.Exists()));
        assertEquals(5L, cache.invoke(k, new Sample.Value()));
        assertEquals(k, cache.invoke(k, new Sample.Key()));
        assertEquals(5L, cache.get(k));
    }

    @Test void entriesThatAProcessorMakesReplacesAndRemoves() {
        assertEquals(3L, cache.invoke(k, new Sample.Add(), 3L));
        assertEquals(3L, cache.get(k));
        assertEquals(7L, cache.invoke(k, new Sample.Add(), 4L));
        assertEquals(7L, cache.get(k));
        assertNull(cache.invoke(k, new Sample.Removes()));
        assertFalse(cache.containsKey(k));
        assertNull(cache.invoke(k, new Sample.Removes()));
        assertFalse(cache.containsKey(k));
        assertFalse(cache.containsKey(k + 1), "another key is as it was");
    }

    @Test void nullsAndClosed() {
        assertThrows(NullPointerException.class, () -> cache.invoke(null, new Sample.Key()));
        assertThrows(NullPointerException.class, () -> cache.invoke(k, null));
        cache.close();
        assertThrows(IllegalStateException.class, () -> cache.invoke(k, new Sample.Key()));
    }

    @Test void invokeAsyncAnswersAndThrows() {
        assertEquals(5L, server.own().invokeAsync(k, new Sample.Add(), 5L).join());
        assertNull(server.own().invokeAsync(k, new Sample.Removes()).join());
        Throwable thrown = assertThrows(CompletionException.class, () -> server.own().invokeAsync(k, new Sample.Divides()).join()).getCause();
        assertEquals(EntryProcessorException.class, thrown.getClass());
        assertEquals(NullPointerException.class, thrown.getCause().getClass());
    }

    private Class<?> failureOf(EntryProcessor<Long, Long, ?> processor, Object... arguments) {
        var future = server.own().invokeAsync(k, processor, arguments);
        assertTrue(future.isCompletedExceptionally(), "a future that has failed");
        return assertThrows(CompletionException.class, future::join).getCause().getClass();
    }

    @Test void invokeAsyncThrowsNothingThatBelongsIntoItsFuture() {
        for (int i = 0; i < 2; i++) {
            assertEquals(ProcessorRefusedException.class, failureOf(new Sample.Loops()));
        }
        assertEquals(CacheException.class, failureOf((entry, arguments) -> 1L));
        assertEquals(IllegalArgumentException.class, failureOf(new Sample.Add(), 'x'));
        assertEquals(IllegalArgumentException.class, failureOf(new Sample.Count(), 1L, 2L, 3L, 4L, 5L, 6L, 7L, 8L, 9L));
        assertFalse(cache.containsKey(k));
    }

    @Test void switchesLeadWhereTheirKeysDo() {
        int[] keys = {-1, 0, 1, 2, 3, 999, 1_000, 1_001, Integer.MIN_VALUE, Integer.MAX_VALUE};
        long[] wanted = {0, 10, 11, 12, 0, 0, 13, 0, -1, 14};
        for (int i = 0; i < keys.length; i++) {
            assertEquals(wanted[i], cache.invoke(k, new Sample.Switches(), keys[i]));
        }
        assertEquals(NullPointerException.class, causeOf(new Sample.Switches(), (Object) null).getClass());
    }
}
