import java.io.Serializable;
import javax.cache.processor.EntryProcessor;
import javax.cache.processor.MutableEntry;

/** Processors in the manner of data grids: small serializable classes that carry their parameters. */
public final class GridStyle {
    private GridStyle() { }

    /** What most of them share. */
    abstract static class Base implements EntryProcessor<Long, Long, Long>, Serializable {
        private static final long serialVersionUID = 1L;

        @Override
        public Long process(MutableEntry<Long, Long> entry, Object... arguments) {
            long before = entry.exists() ? entry.getValue() : 0;
            long after = apply(before);
            entry.setValue(after);
            return after;
        }

        protected abstract long apply(long value);
    }

    public static class NumberIncrementor extends Base {
        private static final long serialVersionUID = 1L;
        private final long by;

        public NumberIncrementor(long by) {
            this.by = by;
        }

        @Override
        protected long apply(long value) {
            return value + by;
        }
    }

    public static class Doubler extends Base {
        private static final long serialVersionUID = 1L;

        @Override
        protected long apply(long value) {
            return value * 2;
        }
    }

    public static class NumberMultiplier implements EntryProcessor<Long, Long, Long>, Serializable {
        private static final long serialVersionUID = 1L;
        private final long factor;
        private final boolean returnOld;

        public NumberMultiplier(long factor, boolean returnOld) {
            this.factor = factor;
            this.returnOld = returnOld;
        }

        @Override
        public Long process(MutableEntry<Long, Long> entry, Object... arguments) {
            if (!entry.exists()) {
                return null;
            }
            long old = entry.getValue();
            entry.setValue(old * factor);
            return returnOld ? old : old * factor;
        }
    }

    public static class ConditionalPut implements EntryProcessor<Long, Long, Long>, Serializable {
        private static final long serialVersionUID = 1L;
        private final Long expected;
        private final Long update;

        public ConditionalPut(Long expected, Long update) {
            this.expected = expected;
            this.update = update;
        }

        @Override
        public Long process(MutableEntry<Long, Long> entry, Object... arguments) {
            Long current = entry.getValue();
            if (expected == null ? current == null : expected.equals(current)) {
                entry.setValue(update);
            }
            return current;
        }
    }

    public static class ConditionalRemove implements EntryProcessor<Long, Long, Boolean>, Serializable {
        private static final long serialVersionUID = 1L;
        private final long below;

        public ConditionalRemove(long below) {
            this.below = below;
        }

        @Override
        public Boolean process(MutableEntry<Long, Long> entry, Object... arguments) {
            if (entry.exists() && entry.getValue() < below) {
                entry.remove();
                return true;
            }
            return false;
        }
    }

    public static class PutIfAbsent implements EntryProcessor<Long, Long, Long> {
        @Override
        public Long process(MutableEntry<Long, Long> entry, Object... arguments) {
            if (entry.exists()) {
                return entry.getValue();
            }
            entry.setValue((Long) arguments[0]);
            return null;
        }
    }

    public static class CompareAndSet implements EntryProcessor<Long, Long, Integer> {
        @Override
        public Integer process(MutableEntry<Long, Long> entry, Object... arguments) {
            Long expected = (Long) arguments[0];
            if (expected.equals(entry.getValue())) {
                entry.setValue((Long) arguments[1]);
                return 1;
            }
            return 0;
        }
    }

    public static class Clamp implements EntryProcessor<Long, Long, Long>, Serializable {
        private static final long serialVersionUID = 1L;
        private final long low;
        private final long high;

        public Clamp(long low, long high) {
            this.low = low;
            this.high = high;
        }

        @Override
        public Long process(MutableEntry<Long, Long> entry, Object... arguments) {
            long value = entry.getValue();
            long clamped = value < low ? low : value > high ? high : value;
            if (clamped != value) {
                entry.setValue(clamped);
            }
            return clamped;
        }
    }

    /** Runs two processors, one after the other. */
    public static class Composite implements EntryProcessor<Long, Long, Long> {
        private final EntryProcessor<Long, Long, Long> first;
        private final EntryProcessor<Long, Long, Long> second;

        public Composite(EntryProcessor<Long, Long, Long> first, EntryProcessor<Long, Long, Long> second) {
            this.first = first;
            this.second = second;
        }

        @Override
        public Long process(MutableEntry<Long, Long> entry, Object... arguments) {
            first.process(entry, arguments);
            return second.process(entry, arguments);
        }
    }

    public static class Touch implements EntryProcessor<Long, Long, Void> {
        private final long at;

        public Touch(long at) {
            this.at = at;
        }

        @Override
        public Void process(MutableEntry<Long, Long> entry, Object... arguments) {
            Long old = entry.getValue();
            if (old == null || old < at) {
                entry.setValue(at);
            }
            return null;
        }
    }

    public static class BitwiseOr implements EntryProcessor<Long, Long, Long> {
        private final long[] masks;

        public BitwiseOr(long... masks) {
            this.masks = masks;
        }

        @Override
        public Long process(MutableEntry<Long, Long> entry, Object... arguments) {
            long word = entry.exists() ? entry.getValue() : 0;
            for (long mask : masks) {
                word |= mask;
            }
            entry.setValue(word);
            return word;
        }
    }
}
