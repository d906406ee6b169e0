package jentry.jcache;

import static org.junit.jupiter.api.Assertions.assertEquals;
import static org.junit.jupiter.api.Assertions.assertFalse;
import static org.junit.jupiter.api.Assertions.assertTrue;

import java.util.ArrayList;
import java.util.Collections;
import java.util.List;
import java.util.concurrent.TimeUnit;
import java.util.function.LongSupplier;

/** Threads that run the same code, and whose failures fail the test. */
public final class Team {
    /** How long a thread may take, in milliseconds; a busy machine needs more. */
    static final long PATIENCE_MILLIS = Long.getLong("jentry.test.patience", 300_000);

    private final List<Thread> threads = new ArrayList<>();
    private final List<Throwable> wrong = Collections.synchronizedList(new ArrayList<>());

    public interface Work {
        void run(int thread) throws Exception;
    }

    public static Team of(int count, Work work) {
        Team team = new Team();
        for (int t = 0; t < count; t++) {
            int number = t;
            Thread thread = new Thread(() -> {
                try {
                    work.run(number);
                } catch (Throwable e) {
                    team.wrong.add(e);
                }
            });
            thread.setDaemon(true);
            team.threads.add(thread);
        }
        team.threads.forEach(Thread::start);
        return team;
    }

    public List<Thread> threads() {
        return threads;
    }

    public void join() throws InterruptedException {
        for (Thread thread : threads) {
            thread.join(PATIENCE_MILLIS);
            assertFalse(thread.isAlive(), "a thread hangs");
        }
        assertEquals(List.of(), wrong);
    }

    /** Joins like {@link #join()}, but as long as the number of calls grows, the threads may go on. */
    public void join(LongSupplier calls) throws InterruptedException {
        for (long before = -1; threads.stream().anyMatch(Thread::isAlive);) {
            long now = calls.getAsLong();
            assertTrue(now > before, "all threads hang");
            before = now;
            long end = System.nanoTime() + TimeUnit.MILLISECONDS.toNanos(PATIENCE_MILLIS);
            for (Thread thread : threads) {
                thread.join(Math.max(1, TimeUnit.NANOSECONDS.toMillis(end - System.nanoTime())));
            }
        }
        assertEquals(List.of(), wrong);
    }
}
