package jentry.jcache.stream;

/**
 * Decides how long a thread polls for a reply before it sleeps. Most replies come within that time, and then no thread
 * has to be woken. After an unsuccessful poll the next waits sleep at once, and for one second all do if other work
 * took the processor meanwhile. Only one thread at a time uses it.
 */
final class Spin {
    private static final long LONG_NANOS = 50_000;
    private static final int MOST_SKIPPED = 255;
    private static final long TAKEN_AWAY_NANOS = 1_000_000;
    private static final long REST_NANOS = 1_000_000_000;

    // How many more waits sleep at once, and how many did after the last unsuccessful poll.
    private int skip;
    private int skipped;
    private long restsFrom = System.nanoTime() - REST_NANOS;
    private long begun;

    /** Starts a wait. Returns whether it should poll. */
    boolean begins() {
        if (skip > 0) {
            skip--;
            return false;
        }
        begun = System.nanoTime();
        return begun - restsFrom >= REST_NANOS;
    }

    /**
     * Returns whether a wait should poll again.
     *
     * @param found whether the last poll found something
     */
    boolean goesOn(boolean found) {
        long now = System.nanoTime();
        if (now - begun >= TAKEN_AWAY_NANOS) {
            restsFrom = now;
        }
        if (found) {
            skipped = 0;
        } else if (now - begun >= LONG_NANOS) {
            skipped = Math.min(2 * skipped + 1, MOST_SKIPPED);
            skip = skipped;
        } else {
            return true;
        }
        return false;
    }
}
