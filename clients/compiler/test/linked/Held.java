import java.util.Arrays;
import javax.cache.processor.EntryProcessor;
import javax.cache.processor.MutableEntry;

/** Processors that hold values: fields that constructors set, of each type that can be passed. */
public class Held {
    /** Adds a number. */
    public static class AddN implements EntryProcessor<Long, Long, Long> {
        private final long n;

        public AddN(long n) {
            this.n = n;
        }

        @Override
        public Long process(MutableEntry<Long, Long> entry, Object... arguments) {
            long now = entry.exists() ? entry.getValue() : 0;
            entry.setValue(now + n);
            return now;
        }
    }

    /** Reads its own arguments by constants, by an index, by a loop, and their number. */
    public static class Arguments implements EntryProcessor<Long, Long, Long> {
        private long limit;
        private final boolean isNegated;

        public Arguments(long limit, boolean isNegated) {
            this.limit = limit;
            this.isNegated = isNegated;
        }

        public void setLimit(long limit) {
            this.limit = limit;
        }

        @Override
        public Long process(MutableEntry<Long, Long> entry, Object... arguments) {
            long sum = 1_000 * arguments.length;
            for (Object one : arguments) {
                sum += one == null ? limit : ((Number) one).longValue();
            }
            for (int i = 0; i < arguments.length; i++) {
                sum += weight(i, arguments);
            }
            if (arguments.length > 3) {
                Object chosen = arguments[(int) (entry.getKey() % 5)];
                sum ^= ((Number) chosen).longValue();
            }
            Number last = (Number) arguments[(int) (entry.getKey() & 7) - 1];
            return isNegated ? -sum - last.longValue() : Math.min(sum, limit);
        }

        private long weight(int i, Object[] all) {
            return i * limit + (all.length > 2 ? ((Number) all[2]).longValue() : 0);
        }
    }

    /** Sorts its arguments in an array of as many, and calls itself last; both beside a number that it holds. */
    public static class Sorted implements EntryProcessor<Long, Long, Long> {
        private final long limit;

        public Sorted(long limit) {
            this.limit = limit;
        }

        @Override
        public Long process(MutableEntry<Long, Long> entry, Object... arguments) {
            long[] all = numbers(arguments);
            Arrays.sort(all);
            long sum = all.length;
            for (long one : all) {
                sum = sum * 31 + Math.min(one, limit);
            }
            return shared(sum, entry.getKey());
        }

        private static long[] numbers(Object[] from) {
            long[] all = new long[from.length];
            for (int i = 0; i < from.length; i++) {
                all[i] = from[i] instanceof Long ? (Long) from[i] : i;
            }
            return all;
        }

        private long shared(long a, long b) {
            return b == 0 ? a ^ limit : shared(b, a % b);
        }
    }

    /** Fields of the small types, and of boxes that may be null. */
    public static class Types implements EntryProcessor<Long, Long, Long> {
        private final byte tiny;
        private final short small;
        private final char letter;
        private final int middle;
        private final Long box;
        private final Integer count;

        public Types(byte tiny, short small, char letter, int middle, Long box, Integer count) {
            this.tiny = tiny;
            this.small = small;
            this.letter = letter;
            this.middle = middle;
            this.box = middle % 3 == 0 ? null : box;
            this.count = count;
        }

        @Override
        public Long process(MutableEntry<Long, Long> entry, Object... arguments) {
            long sum = tiny + 3L * small + 5L * letter + 7L * middle + (count == null ? 0 : count);
            entry.setValue(sum);
            return box == null ? null : box + sum;
        }
    }

    /** Holds records, one in the other. */
    public static class Nested implements EntryProcessor<Long, Long, Long> {
        /** An interval. */
        public record Limits(long low, long high) {
            /** Keeps the order of the ends. */
            public Limits {
                if (low > high) {
                    throw new IllegalArgumentException("empty");
                }
            }

            long clamp(long value) {
                return Math.max(low, Math.min(high, value));
            }
        }

        /** Two intervals. */
        public record Pair(Limits first, Limits second, int shift) { }

        private final Pair pair;

        public Nested(Pair pair) {
            this.pair = pair;
        }

        private Limits chosen() {
            return pair.second();
        }

        @Override
        public Long process(MutableEntry<Long, Long> entry, Object... arguments) {
            Limits limits = pair.first();
            long value = limits.clamp(entry.getKey()) + chosen().clamp(entry.getKey() << pair.shift);
            entry.setValue(value);
            return limits == null || pair instanceof Pair ? value + limits.low() : -1;
        }
    }

    /** Checks what it is given, and computes its fields. */
    public static class Checked implements EntryProcessor<Long, Long, Long> {
        private final long window;
        private final long share;

        public Checked(long window, int parts) {
            if (window <= 0 || parts <= 0) {
                throw new IllegalArgumentException("window " + window);
            }
            this.window = window;
            share = window / parts;
        }

        @Override
        public Long process(MutableEntry<Long, Long> entry, Object... arguments) {
            return (Long) arguments[0] / window * share;
        }
    }

    private long rate = 5;
    private static final int SHIFT = 3;

    public Held(long rate) {
        this.rate = rate;
    }

    private long scaled(long x) {
        return x * rate + SHIFT;
    }

    /** An inner class, which holds its outer instance. */
    public class Inner implements EntryProcessor<Long, Long, Long> {
        private final long mine;

        public Inner(long mine) {
            this.mine = mine;
        }

        @Override
        public Long process(MutableEntry<Long, Long> entry, Object... arguments) {
            entry.setValue(rate * mine + scaled(mine));
            return rate;
        }
    }

    public EntryProcessor<Long, Long, Long> anonymous(final long x, final int y) {
        return new EntryProcessor<Long, Long, Long>() {
            @Override
            public Long process(MutableEntry<Long, Long> entry, Object... arguments) {
                return x + entry.getKey() + rate + y * arguments.length;
            }
        };
    }

    public EntryProcessor<Long, Long, Long> lambda(long by, int shift) {
        return (entry, arguments) -> entry.getKey() * by + (rate << shift) + scaled(by) + arguments.length;
    }

    public static EntryProcessor<Long, Long, Long> limited(long limit, Nested.Limits limits) {
        return (entry, arguments) -> {
            long sum = limit;
            for (Object one : arguments) {
                sum += limits.clamp((Long) one);
            }
            return sum;
        };
    }

    private Long named(MutableEntry<Long, Long> entry, Object... arguments) {
        return entry.getKey() + rate;
    }

    public EntryProcessor<Long, Long, Long> reference() {
        return this::named;
    }
}
