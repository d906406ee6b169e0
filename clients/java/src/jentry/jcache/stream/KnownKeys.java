package jentry.jcache.stream;

import java.util.Arrays;
import java.util.HashMap;
import java.util.Iterator;
import java.util.Map;
import java.util.NoSuchElementException;

/**
 * The keys that may have an entry in a server that one store alone uses: at least those that have one. A key is added
 * before a call that may make its entry is sent. It is dropped after a removal, unless a call that may make the entry
 * was out at the same time.
 */
final class KnownKeys {
    private static final int STRIPES = 64;
    private static final int PAGE = 1_024;

    private final Stripe[] stripes = new Stripe[STRIPES];

    KnownKeys() {
        Arrays.setAll(stripes, i -> new Stripe());
    }

    /** The calls on one key that are out. */
    private static final class Flight {
        private int calls;
        private boolean makes;
    }

    /** A part of the keys. */
    private static final class Stripe {
        private final LongSet keys = new LongSet();
        private final Map<Long, Flight> out = new HashMap<>();

        private synchronized void begin(long key, boolean makes) {
            Flight flight = out.computeIfAbsent(key, it -> new Flight());
            flight.calls++;
            flight.makes |= makes;
            if (makes) {
                keys.add(key);
            }
        }

        private synchronized void end(long key, boolean isGone) {
            Flight flight = out.get(key);
            if (isGone && !flight.makes) {
                keys.remove(key);
            }
            if (--flight.calls == 0) {
                out.remove(key);
            }
        }

        private synchronized void found(long key) {
            keys.add(key);
        }

        private synchronized long[] all() {
            return keys.toArray();
        }

        private synchronized void clear() {
            keys.clear();
            out.forEach((key, flight) -> {
                if (flight.makes) {
                    keys.add(key);
                }
            });
        }
    }

    private Stripe stripe(long key) {
        return stripes[LongSet.hash(key) >>> Integer.SIZE - 6];
    }

    /** Called before a call that may make an entry. */
    void making(long key) {
        stripe(key).begin(key, true);
    }

    /** Called after a call that may have made an entry. */
    void made(long key) {
        stripe(key).end(key, false);
    }

    /** Called before a removal. */
    void removing(long key) {
        stripe(key).begin(key, false);
    }

    /** Called after a removal. Its entry is gone unless the call failed. */
    void removed(long key, boolean isGone) {
        stripe(key).end(key, isGone);
    }

    /** Called when a read has found an entry, which a loader of the server may have made. */
    void found(long key) {
        stripe(key).found(key);
    }

    /** Called when the server has ended, and all entries with it. Calls that are out may make theirs at a new one. */
    void clear() {
        for (Stripe stripe : stripes) {
            stripe.clear();
        }
    }

    /** Returns the keys in pages. Keys that are added meanwhile may be missing. */
    Iterator<long[]> pages() {
        return new Iterator<>() {
            private int next;
            private long[] keys = new long[0];
            private int from;

            @Override public boolean hasNext() {
                while (from == keys.length && next < STRIPES) {
                    keys = stripes[next++].all();
                    from = 0;
                }
                return from < keys.length;
            }

            @Override public long[] next() {
                if (!hasNext()) {
                    throw new NoSuchElementException();
                }
                long[] page = new long[PAGE];
                int count = 0;
                while (count < PAGE && hasNext()) {
                    int some = Math.min(keys.length - from, PAGE - count);
                    System.arraycopy(keys, from, page, count, some);
                    from += some;
                    count += some;
                }
                return Arrays.copyOf(page, count);
            }
        };
    }
}
