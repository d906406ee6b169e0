import javax.cache.processor.EntryProcessor;
import javax.cache.processor.MutableEntry;

/** Processors that make objects of small classes and records. */
public class Values {
    /** A point. */
    static class Point {
        final int x;
        private int y;

        Point(int x, int y) {
            this.x = x;
            this.y = y;
        }

        Point(Point other) {
            x = other.y;
            y = other.x;
        }

        Point plus(Point other) {
            return new Point(x + other.x, y + other.y);
        }

        static Point of(long packed) {
            return new Point((int) (packed >> 32), (int) packed);
        }

        long packed() {
            return (long) x << 32 | y & 0xFFFFFFFFL;
        }

        int zero() {
            return 0;
        }
    }

    /** Moves a point. */
    public static class Moves implements EntryProcessor<Long, Long, Long> {
        @Override
        public Long process(MutableEntry<Long, Long> entry, Object... arguments) {
            Point at = Point.of(entry.exists() ? entry.getValue() : 0);
            Point moved = new Point(at.plus(new Point((Integer) arguments[0], (Integer) arguments[1])));
            entry.setValue(moved.packed());
            return moved.packed() ^ at.packed();
        }
    }

    /** A range, which is never empty. */
    record Range(int from, int to) {
        Range {
            if (from > to) {
                throw new IllegalArgumentException("from " + from + " to " + to);
            }
        }

        boolean overlaps(Range other) {
            return from <= other.to && other.from() <= to;
        }

        Range with(Range other) {
            return new Range(Math.min(from, other.from), Math.max(to, other.to));
        }
    }

    /** Books a range, and chooses between ranges. */
    public static class Books implements EntryProcessor<Long, Long, Object> {
        @Override
        public Object process(MutableEntry<Long, Long> entry, Object... arguments) {
            Range wanted = new Range((Integer) arguments[0] >> 4, (Integer) arguments[1]);
            Range kept = entry.exists() ? new Range((int) (entry.getValue() >> 32) | 1 << 31, (int) (entry.getValue() & 0xFFFF)) : null;
            if (kept != null && kept.overlaps(wanted)) {
                return false;
            }
            Range all = kept == null || entry.getKey() < 0 ? wanted : kept.with(wanted);
            entry.setValue((long) all.from() << 32 | all.to() & 0xFFFFFFFFL);
            return all.from() + 31L * all.to();
        }
    }

    /** Fields of all sizes. */
    record Mixed(byte level, boolean isOpen, short count, char mark, boolean isLast) {
        Mixed next(long by) {
            return new Mixed((byte) (level + by), !isOpen, (short) (count * by), (char) (mark - by), by % 2 == 0);
        }

        long sum() {
            return level + (isOpen ? 1000L : 0) + count * 7L + mark * 13L + (isLast ? 5 : 3);
        }
    }

    /** Objects that a loop makes. */
    public static class Loops implements EntryProcessor<Long, Long, Long> {
        @Override
        public Long process(MutableEntry<Long, Long> entry, Object... arguments) {
            Mixed mixed = new Mixed((byte) (long) entry.getKey(), true, (short) -5, 'x', false);
            long sum = 0;
            for (Object one : arguments) {
                mixed = mixed.next(((Number) one).longValue());
                sum = sum * 31 + mixed.sum();
            }
            for (int i = 0; i < 3; i++) {
                mixed = mixed.next(i);
            }
            return sum + mixed.sum();
        }
    }

    /** An amount, which takes all bits. */
    record Amount(long cents) {
        Amount times(long by) {
            return by == 0 ? null : new Amount(cents * by);
        }

        static long centsOf(Amount amount) {
            return amount == null ? -1 : amount.cents;
        }
    }

    /** Null stays null, and a call of it throws. */
    public static class Nulls implements EntryProcessor<Long, Long, Long> {
        @Override
        public Long process(MutableEntry<Long, Long> entry, Object... arguments) {
            Amount amount = new Amount(entry.getKey()).times((Integer) arguments[0] & 3);
            Point point = entry.exists() ? new Point(1, -2) : null;
            long cents = Amount.centsOf(amount);
            if (cents == -1) {
                return point.zero() + 7L;
            }
            return amount.times(3).cents() + cents;
        }
    }
}
