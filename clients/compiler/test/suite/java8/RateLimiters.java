import java.io.Serializable;
import java.util.concurrent.TimeUnit;
import javax.cache.processor.EntryProcessor;
import javax.cache.processor.MutableEntry;

/** Rate limiters: windows, buckets, backoff. Times come as arguments. */
public final class RateLimiters {
    static final long MILLIS_PER_MINUTE = 60_000L;

    private RateLimiters() { }

    static long clamp(long value, long low, long high) {
        return Math.max(low, Math.min(high, value));
    }

    /** At most `limit` calls a minute. The upper bits hold the minute and the lower 16 the calls. */
    public static class FixedWindow implements EntryProcessor<Long, Long, Boolean>, Serializable {
        private static final long serialVersionUID = 1L;
        private final int limit;

        public FixedWindow(int limit) {
            this.limit = limit;
        }

        @Override
        public Boolean process(MutableEntry<Long, Long> entry, Object... arguments) {
            long minute = (Long) arguments[0] / MILLIS_PER_MINUTE;
            long state = entry.exists() ? entry.getValue() : 0;
            int used = state >> 16 == minute ? (int) (state & 0xFFFF) : 0;
            if (used >= limit) {
                return Boolean.FALSE;
            }
            entry.setValue(minute << 16 | used + 1);
            return Boolean.TRUE;
        }
    }

    public static class TokenBucket implements EntryProcessor<Long, Long, Long> {
        private static final int CAPACITY = 50;
        private static final int REFILL_MILLIS = 200;

        @Override
        public Long process(MutableEntry<Long, Long> entry, Object... arguments) {
            long now = (Long) arguments[0];
            int cost = (Integer) arguments[1];
            long last = now;
            long tokens = CAPACITY;
            if (entry.exists()) {
                last = entry.getValue() >> 8;
                tokens = entry.getValue() & 0xFF;
                long gained = (now - last) / REFILL_MILLIS;
                if (gained > 0) {
                    tokens = Math.min(CAPACITY, tokens + gained);
                    last += gained * REFILL_MILLIS;
                }
            }
            if (tokens < cost) {
                return -1L;
            }
            tokens -= cost;
            entry.setValue(last << 8 | tokens);
            return tokens;
        }
    }

    public static class LeakyBucket implements EntryProcessor<Long, Long, Integer> {
        @Override
        public Integer process(MutableEntry<Long, Long> entry, Object... arguments) {
            long now = (Long) arguments[0];
            long drops = (Long) arguments[1];
            long level = 0;
            if (entry.getValue() != null) {
                long last = entry.getValue() >>> 20;
                level = entry.getValue() & 0xFFFFF;
                level = clamp(level - (now - last), 0, 1_000_000);
            }
            if (level + drops > 1_000_000) {
                return 0;
            }
            entry.setValue(now << 20 | level + drops);
            return 1;
        }
    }

    /** Sixteen slots of four bits, one a second. */
    public static class SlidingWindow implements EntryProcessor<Long, Long, Long> {
        private static final int SLOTS = 12;
        private static final int LIMIT = 60;

        @Override
        public Long process(MutableEntry<Long, Long> entry, Object... arguments) {
            int second = (Integer) arguments[0];
            long state = entry.exists() ? entry.getValue() : 0L;
            int last = (int) (state & 0xFFFF);
            long slots = state >>> 16;
            int passed = second - last;
            while (passed > 0 && slots != 0) {
                slots = slots << 4 & 0xFFFFFFFFFFFFL;
                passed--;
            }
            int total = 0;
            for (int i = 0; i < SLOTS; i++) {
                total += slots >>> i * 4 & 15;
            }
            if (total >= LIMIT || (slots & 15) == 15) {
                return -1L;
            }
            slots++;
            entry.setValue(slots << 16 | second & 0xFFFF);
            return (long) LIMIT - total;
        }
    }

    public static class ExponentialBackoff implements EntryProcessor<Long, Long, Long> {
        @Override
        public Long process(MutableEntry<Long, Long> entry, Object... arguments) {
            int attempts = entry.exists() ? entry.getValue().intValue() : 0;
            long delay = 100;
            for (int i = 0; i < attempts; i++) {
                delay *= 2;
                if (delay > 30_000) {
                    delay = 30_000;
                    break;
                }
            }
            entry.setValue((long) attempts + 1);
            return delay;
        }
    }

    public static class BackoffByShift implements EntryProcessor<Long, Long, Long> {
        @Override
        public Long process(MutableEntry<Long, Long> entry, Object... arguments) {
            long attempts = entry.exists() ? entry.getValue() : 0;
            entry.setValue(attempts + 1);
            return Math.min(30_000L, 100L << Math.min(attempts, 20));
        }
    }

    public static class Debounce implements EntryProcessor<Long, Long, Boolean> {
        private final long quietMillis = TimeUnit.SECONDS.toMillis(5);

        @Override
        public Boolean process(MutableEntry<Long, Long> entry, Object... arguments) {
            long now = (Long) arguments[0];
            boolean fire = !entry.exists() || now - entry.getValue() >= quietMillis;
            entry.setValue(now);
            return fire;
        }
    }

    public static class Throttle implements EntryProcessor<Long, Long, Long> {
        @Override
        public Long process(MutableEntry<Long, Long> entry, Object... arguments) {
            long now = System.currentTimeMillis();
            long next = entry.exists() ? entry.getValue() : now;
            long wait = Math.max(0, next - now);
            entry.setValue(Math.max(next, now) + 250);
            return wait;
        }
    }

    public static class Gcra implements EntryProcessor<Long, Long, Long> {
        private static final long EMISSION = 1_000_000_000L / 100;
        private static final long TOLERANCE = EMISSION * 20;

        @Override
        public Long process(MutableEntry<Long, Long> entry, Object... arguments) {
            long now = ((Number) arguments[0]).longValue();
            long tat = entry.exists() ? Math.max(entry.getValue(), now) : now;
            if (tat - now > TOLERANCE) {
                return tat - now - TOLERANCE;
            }
            entry.setValue(tat + EMISSION);
            return 0L;
        }
    }

    public static class ConcurrencyLimit implements EntryProcessor<Long, Long, Long> {
        @Override
        public Long process(MutableEntry<Long, Long> entry, Object... args) {
            int op = (Integer) args[0];
            long limit = (Long) args[1];
            long inFlight = entry.exists() ? entry.getValue() : 0;
            switch (op) {
                case 0:
                    if (inFlight < limit) {
                        inFlight++;
                    } else {
                        return -1L;
                    }
                    break;
                case 1:
                    inFlight = Math.max(0, inFlight - 1);
                    break;
                default:
                    throw new IllegalArgumentException("op " + op);
            }
            if (inFlight == 0) {
                entry.remove();
            } else {
                entry.setValue(inFlight);
            }
            return inFlight;
        }
    }

    public static class DailyQuota implements EntryProcessor<Long, Long, Long> {
        private static final long[] QUOTA_BY_TIER = {100, 1_000, 10_000, Long.MAX_VALUE};

        @Override
        public Long process(MutableEntry<Long, Long> entry, Object... args) {
            int tier = (Integer) args[0];
            long units = (Long) args[1];
            long used = entry.exists() ? entry.getValue() : 0;
            long quota = QUOTA_BY_TIER[tier];
            if (units < 0 || used > quota - units) {
                return -1L;
            }
            entry.setValue(used + units);
            return quota - used - units;
        }
    }
}
