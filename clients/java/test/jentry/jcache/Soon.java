package jentry.jcache;

import static org.junit.jupiter.api.Assertions.assertTrue;

import java.util.ArrayList;
import java.util.Collections;
import java.util.List;
import java.util.concurrent.TimeUnit;

/** Checks that something ends within a second. On a busy machine it may take longer twice, but never more than five seconds. */
final class Soon {
    private static final long WANTED_MILLIS = 1_000;
    private static final long MOST_MILLIS = 5_000;
    private static final int TRIES = 3;

    private Soon() { }

    interface Try {
        /** Returns the start and end times by {@link System#nanoTime}. */
        long[] fromTo() throws Exception;
    }

    static void within(Try it) throws Exception {
        List<Long> took = new ArrayList<>();
        while (took.size() < TRIES && (took.isEmpty() || Collections.min(took) > WANTED_MILLIS)) {
            long[] times = it.fromTo();
            took.add(TimeUnit.NANOSECONDS.toMillis(times[1] - times[0]));
            assertTrue(Collections.max(took) < MOST_MILLIS, () -> "milliseconds: " + took);
        }
        assertTrue(Collections.min(took) <= WANTED_MILLIS, () -> "milliseconds: " + took);
    }
}
