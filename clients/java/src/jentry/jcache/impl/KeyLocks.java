package jentry.jcache.impl;

import java.util.Arrays;
import java.util.concurrent.TimeUnit;
import java.util.concurrent.locks.ReentrantLock;
import java.util.function.Supplier;

/**
 * Locks of this JVM, each for the keys of one hash value. They keep the threads of this JVM from spoiling each other's
 * attempts; atomicity comes from the server, which other JVMs use too.
 */
final class KeyLocks {
    private static final int COUNT = 64;

    /**
     * How long a thread waits for a lock before it continues without it. A processor in this JVM may call the cache on
     * another key, so two threads could deadlock.
     */
    private static final long PATIENCE_MILLIS = 2_000;

    private final ReentrantLock[] locks = new ReentrantLock[COUNT];

    KeyLocks() {
        Arrays.setAll(locks, i -> new ReentrantLock());
    }

    private ReentrantLock lock(long key) {
        return locks[Math.floorMod(Long.hashCode(key), COUNT)];
    }

    /** Runs the work while holding the lock of the key, or without it if the wait times out. */
    <T> T with(long key, Supplier<T> work) {
        ReentrantLock lock = lock(key);
        boolean isHeld = take(lock);
        try {
            return work.get();
        } finally {
            if (isHeld) {
                lock.unlock();
            }
        }
    }

    private static boolean take(ReentrantLock lock) {
        if (lock.tryLock()) {
            return true;
        }
        boolean interrupted = false;
        long end = System.nanoTime() + TimeUnit.MILLISECONDS.toNanos(PATIENCE_MILLIS);
        try {
            while (true) {
                try {
                    return lock.tryLock(end - System.nanoTime(), TimeUnit.NANOSECONDS);
                } catch (InterruptedException e) {
                    interrupted = true;
                }
            }
        } finally {
            if (interrupted) {
                Thread.currentThread().interrupt();
            }
        }
    }
}
