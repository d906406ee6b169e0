package jentry.jcache.impl;

import java.util.LinkedHashSet;
import java.util.Set;
import java.util.concurrent.TimeUnit;

/** The single thread of this JVM that ends calls that time out. It runs while there is something to watch. */
public final class Watch {
    private static final long LEAST_MILLIS = 5;
    private static final long MOST_MILLIS = 1_000;
    private static final Set<Watched> ALL = new LinkedHashSet<>();
    private static Thread thread;

    /** Something whose calls can time out. */
    public interface Watched {
        /**
         * Ends the calls that have timed out.
         *
         * @param now the time by {@link System#nanoTime}
         */
        void watch(long now);

        /** Returns the timeout of a call in nanoseconds. */
        long timeoutNanos();
    }

    private Watch() { }

    /** Starts watching an object. */
    public static void add(Watched it) {
        synchronized (ALL) {
            ALL.add(it);
            if (thread == null) {
                thread = new Thread(Watch::run, "jentry-watch");
                thread.setDaemon(true);
                thread.start();
            }
            ALL.notifyAll();
        }
    }

    /** Stops watching an object. */
    public static void remove(Watched it) {
        synchronized (ALL) {
            ALL.remove(it);
            ALL.notifyAll();
        }
    }

    private static void run() {
        for (Set<Watched> all = next(); !all.isEmpty(); all = next()) {
            long now = System.nanoTime();
            all.forEach(it -> it.watch(now));
        }
    }

    /** Waits for a while and returns the watched objects. If there are none, this thread must end. */
    private static Set<Watched> next() {
        synchronized (ALL) {
            try {
                if (!ALL.isEmpty()) {
                    ALL.wait(pauseMillis());
                }
            } catch (InterruptedException e) {
                // Nobody has a reason to interrupt this thread, so it continues.
            }
            if (ALL.isEmpty()) {
                thread = null;
            }
            return new LinkedHashSet<>(ALL);
        }
    }

    /** Returns a tenth of the shortest timeout, within limits. */
    private static long pauseMillis() {
        long shortest = ALL.stream().mapToLong(Watched::timeoutNanos).min().orElse(0);
        return Math.max(LEAST_MILLIS, Math.min(MOST_MILLIS, TimeUnit.NANOSECONDS.toMillis(shortest) / 10));
    }
}
