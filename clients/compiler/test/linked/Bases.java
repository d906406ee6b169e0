import javax.cache.processor.EntryProcessor;
import javax.cache.processor.MutableEntry;
import tools.Numbers;

/** Processors that use base classes, default methods and static methods of other classes. */
public class Bases {
    private static long hidden(long x) {
        return x ^ 5;
    }

    private static final long SECRET = 77;

    /** A template. */
    public abstract static class Template implements EntryProcessor<Long, Long, Long> {
        protected final long limit;
        private final int count = 3;

        protected Template(long limit) {
            this.limit = limit;
        }

        abstract long next(long now);

        long start() {
            return limit;
        }

        @Override
        public Long process(MutableEntry<Long, Long> entry, Object... arguments) {
            long now = entry.exists() ? entry.getValue() : start();
            for (int i = 0; i < count; i++) {
                now = next(now);
            }
            entry.setValue(now);
            return now;
        }
    }

    /** A default method. */
    public interface Doubling {
        long FACTOR = 2;

        default long doubled(long x) {
            return FACTOR * x + more();
        }

        default long more() {
            return 0;
        }
    }

    /** Extends the template. */
    public static class Clamped extends Template implements Doubling {
        public Clamped(long limit) {
            super(limit);
        }

        @Override
        long next(long now) {
            return Numbers.clamp(doubled(now), 0, limit) + Numbers.power((int) now);
        }

        @Override
        public long more() {
            return hidden(limit) + SECRET;
        }
    }

    /** Extends an extension, and calls the overridden method. */
    public static class Further extends Clamped {
        private final long limit = 9;

        public Further() {
            super(1_000);
        }

        @Override
        long start() {
            return super.start() + limit;
        }

        @Override
        public Long process(MutableEntry<Long, Long> entry, Object... arguments) {
            return super.process(entry, arguments) + 1;
        }
    }

    /** Values by a type parameter, with javac's bridges. */
    public abstract static class Typed<T extends Number> implements EntryProcessor<Long, Long, T> {
        abstract T convert(long value, T previous);

        T none() {
            return null;
        }

        @Override
        public T process(MutableEntry<Long, Long> entry, Object... arguments) {
            return entry.exists() ? convert(entry.getValue(), none()) : none();
        }
    }

    /** Answers an Integer. */
    public static class ToInteger extends Typed<Integer> {
        @Override
        Integer convert(long value, Integer previous) {
            return previous == null ? (int) (value >> 3) : previous;
        }
    }

    /** Static methods alone. */
    public static class Statics implements EntryProcessor<Long, Long, Long> {
        @Override
        public Long process(MutableEntry<Long, Long> entry, Object... arguments) {
            return Numbers.digits(entry.getKey()) + hidden(SECRET) + entry.getKey() / Numbers.DAY;
        }
    }

    /** A constant object. */
    private static final class Rates {
        static final Rates STANDARD = new Rates(19, 7);

        private final long full;
        private final long reduced;

        private Rates(long full, long reduced) {
            this.full = full;
            this.reduced = reduced;
        }

        long of(long amount, boolean isReduced) {
            return amount * (isReduced ? reduced : full) / 100;
        }
    }

    /** Uses the constant object. */
    public static class Tax implements EntryProcessor<Long, Long, Long> {
        private static final Rates RATES = Rates.STANDARD;

        @Override
        public Long process(MutableEntry<Long, Long> entry, Object... arguments) {
            return RATES.of(entry.getKey(), arguments.length > 0);
        }
    }
}
