package jentry.jcache.jsr107;

import static org.junit.jupiter.api.Assertions.assertEquals;
import static org.junit.jupiter.api.Assertions.assertNull;
import static org.junit.jupiter.api.Assertions.assertThrows;
import static org.junit.jupiter.api.Assertions.assertTrue;

import java.util.concurrent.TimeUnit;
import java.util.concurrent.atomic.AtomicInteger;
import java.util.function.BooleanSupplier;
import org.junit.jupiter.api.function.Executable;

/** Assertions that are counted. */
final class Expect {
    static final AtomicInteger COUNT = new AtomicInteger();
    private static final long PATIENCE_NANOS = TimeUnit.SECONDS.toNanos(60);

    private Expect() { }

    static void same(Object wanted, Object got) {
        COUNT.incrementAndGet();
        assertEquals(wanted, got);
    }

    static void none(Object got) {
        COUNT.incrementAndGet();
        assertNull(got);
    }

    static void yes(boolean got) {
        COUNT.incrementAndGet();
        assertTrue(got);
    }

    static void no(boolean got) {
        COUNT.incrementAndGet();
        assertTrue(!got, "false is expected");
    }

    static <T extends Throwable> T thrown(Class<T> wanted, Executable call) {
        COUNT.incrementAndGet();
        return assertThrows(wanted, call);
    }

    /** Expects each of the calls to throw. */
    static void eachThrows(Class<? extends Throwable> wanted, Executable... calls) {
        for (int i = 0; i < calls.length; i++) {
            COUNT.incrementAndGet();
            assertThrows(wanted, calls[i], "call " + i);
        }
    }

    /** Waits for what comes later, such as an asynchronous event. */
    static void soon(BooleanSupplier holds) {
        COUNT.incrementAndGet();
        long end = System.nanoTime() + PATIENCE_NANOS;
        while (!holds.getAsBoolean()) {
            assertTrue(System.nanoTime() < end, "what was awaited didn't come");
            pause(2);
        }
    }

    static void pause(long millis) {
        try {
            Thread.sleep(millis);
        } catch (InterruptedException e) {
            throw new IllegalStateException(e);
        }
    }
}
