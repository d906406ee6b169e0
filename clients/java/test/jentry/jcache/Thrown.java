package jentry.jcache;

import static org.junit.jupiter.api.Assertions.assertEquals;
import static org.junit.jupiter.api.Assertions.assertNotSame;
import static org.junit.jupiter.api.Assertions.assertNull;
import static org.junit.jupiter.api.Assertions.assertSame;
import static org.junit.jupiter.api.Assertions.assertThrows;

import java.util.List;
import javax.cache.processor.EntryProcessorException;
import org.junit.jupiter.api.function.Executable;

/**
 * An exception of {@link Throwing}.
 *
 * @param argument the argument with which it is thrown
 * @param number the server's number
 * @param type its class
 * @param text its text, or null
 */
public record Thrown(long argument, int number, Class<? extends Exception> type, String text) {
    /** All exceptions that a processor can throw, with a text and without one. */
    public static final List<Thrown> ALL = List.of(
        new Thrown(1, 1, ArithmeticException.class, Throwing.ARITHMETIC),
        new Thrown(7, 7, EntryProcessorException.class, Throwing.OWN),
        new Thrown(8, 8, IllegalArgumentException.class, Throwing.ARGUMENT),
        new Thrown(9, 9, IllegalStateException.class, Throwing.STATE),
        new Thrown(10, 10, UnsupportedOperationException.class, Throwing.OPERATION),
        new Thrown(11, 1, ArithmeticException.class, null),
        new Thrown(17, 7, EntryProcessorException.class, null),
        new Thrown(18, 8, IllegalArgumentException.class, null),
        new Thrown(19, 9, IllegalStateException.class, null),
        new Thrown(20, 10, UnsupportedOperationException.class, null));

    /** Checks that it is what a call threw, as JSR 107 says: an EntryProcessorException as it is, another exception as the cause of one. */
    public void is(Throwable thrown) {
        assertSame(EntryProcessorException.class, thrown.getClass(), this::toString);
        Throwable own = type == EntryProcessorException.class ? thrown : thrown.getCause();
        assertSame(type, own.getClass(), this::toString);
        assertEquals(text, own.getMessage());
        assertNull(own.getCause());
    }

    /** Checks that a call throws it. Each call throws another object, whose stack trace is the caller's. */
    public void isThrownBy(Executable call) {
        EntryProcessorException thrown = assertThrows(EntryProcessorException.class, call);
        is(thrown);
        assertNotSame(thrown, assertThrows(EntryProcessorException.class, call));
    }
}
