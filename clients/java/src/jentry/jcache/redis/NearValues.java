package jentry.jcache.redis;

import java.util.Arrays;
import java.util.HashMap;
import java.util.LinkedHashMap;
import java.util.Map;

/**
 * The values that a near cache keeps of one cache, at most a given number of them. The values that were used least
 * recently are dropped first.
 *
 * <p>A read at the server and the message about a change of its key come on different connections, in either order. So
 * a value that was read is kept only if no change of its key was heard of since the read began. While this JVM writes a
 * key, no value of it is returned or kept.
 */
final class NearValues {
    private static final int MOST_STRIPES = 64;
    private static final int VALUES_A_STRIPE = 64;

    private final Stripe[] stripes;

    /** Where the messages about the changes of a value come from. */
    interface Source {
        /**
         * Returns whether the messages have come up to a moment ago, so that values can be returned.
         *
         * @param now the time by {@link System#nanoTime}
         */
        boolean isTrusted(long now);
    }

    /** A value; {@code until} is when its entry expires by {@link System#nanoTime}, or null if it doesn't. */
    private record Kept(long value, Long until, Source source) { }

    /** A read at the server that is out, and the number of changes of its key before it. */
    record Read(long key, long changes) { }

    /** The reads and writes of one key that are out. */
    private static final class Flight {
        private int calls;
        private int writes;
        private long changes;
    }

    /** A part of the keys. */
    private static final class Stripe {
        private final Map<Long, Flight> out = new HashMap<>();
        private final Map<Long, Kept> kept;

        Stripe(int most) {
            kept = new LinkedHashMap<>(16, 0.75f, true) {
                private static final long serialVersionUID = 1;

                @Override protected boolean removeEldestEntry(Map.Entry<Long, Kept> eldest) {
                    return size() > most;
                }
            };
        }

        private Flight join(long key) {
            Flight flight = out.computeIfAbsent(key, it -> new Flight());
            flight.calls++;
            return flight;
        }

        private void leave(long key, Flight flight) {
            if (--flight.calls == 0) {
                out.remove(key);
            }
        }

        private synchronized Long get(long key, long now) {
            Kept it = kept.get(key);
            if (it == null || !it.source.isTrusted(now)) {
                return null;
            } else if (it.until != null && it.until - now <= 0) {
                kept.remove(key);
                return null;
            }
            return it.value;
        }

        private synchronized Read begin(long key) {
            return new Read(key, join(key).changes);
        }

        private synchronized void end(Read read, Kept value) {
            Flight flight = out.get(read.key);
            if (value != null && flight.changes == read.changes && flight.writes == 0) {
                kept.put(read.key, value);
            }
            leave(read.key, flight);
        }

        private synchronized void beginWrite(long key) {
            Flight flight = join(key);
            flight.writes++;
            kept.remove(key);
        }

        private synchronized void endWrite(long key) {
            Flight flight = out.get(key);
            flight.writes--;
            flight.changes++;
            leave(key, flight);
        }

        private synchronized void changed(long key) {
            kept.remove(key);
            Flight flight = out.get(key);
            if (flight != null) {
                flight.changes++;
            }
        }

        private synchronized void drop(Source source) {
            kept.values().removeIf(it -> source == null || it.source == source);
            out.values().forEach(it -> it.changes++);
        }

        private synchronized int size() {
            return kept.size();
        }
    }

    /** @param most the greatest number of values, at least 1 */
    NearValues(int most) {
        int count = Integer.highestOneBit(Math.max(1, Math.min(MOST_STRIPES, most / VALUES_A_STRIPE)));
        stripes = new Stripe[count];
        Arrays.setAll(stripes, i -> new Stripe(most / count));
    }

    private Stripe stripe(long key) {
        return stripes[(int) (key * 0x9E3779B97F4A7C15L >>> 32) & stripes.length - 1];
    }

    /** Returns the value that is kept of a key, or null. */
    Long get(long key, long now) {
        return stripe(key).get(key, now);
    }

    /** Called before a read is sent to the server. */
    Read begin(long key) {
        return stripe(key).begin(key);
    }

    /**
     * Called after a read. Keeps its value, if it has one and there was no change since.
     *
     * @param value the value, or null
     * @param until when the entry expires by {@link System#nanoTime}, or null
     * @param source where changes of the key are heard of; it has been trusted since before the read
     */
    void end(Read read, Long value, Long until, Source source) {
        stripe(read.key).end(read, value == null ? null : new Kept(value, until, source));
    }

    /** Called before this JVM writes a key. */
    void beginWrite(long key) {
        stripe(key).beginWrite(key);
    }

    /** Called after this JVM has written a key, or has failed to. */
    void endWrite(long key) {
        stripe(key).endWrite(key);
    }

    /** Called when a key was changed. */
    void changed(long key) {
        stripe(key).changed(key);
    }

    /** Drops the values of a source that was lost. */
    void lost(Source source) {
        for (Stripe stripe : stripes) {
            stripe.drop(source);
        }
    }

    /** Drops all values. */
    void clear() {
        lost(null);
    }

    /** Returns the number of values. */
    int size() {
        return Arrays.stream(stripes).mapToInt(Stripe::size).sum();
    }
}
