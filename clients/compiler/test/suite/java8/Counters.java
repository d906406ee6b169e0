import java.io.Serializable;
import javax.cache.processor.EntryProcessor;
import javax.cache.processor.EntryProcessorException;
import javax.cache.processor.MutableEntry;

/** Counters: hits, quotas, high-water marks, votes. */
public final class Counters {
    private Counters() { }

    public static class Increment implements EntryProcessor<Long, Long, Long>, Serializable {
        private static final long serialVersionUID = 1L;

        @Override
        public Long process(MutableEntry<Long, Long> entry, Object... arguments) throws EntryProcessorException {
            long next = entry.exists() ? entry.getValue() + 1 : 1;
            entry.setValue(next);
            return next;
        }
    }

    public static class AddAll implements EntryProcessor<Long, Long, Long> {
        @Override
        public Long process(MutableEntry<Long, Long> entry, Object... arguments) {
            long total = entry.getValue() == null ? 0L : entry.getValue();
            for (Object argument : arguments) {
                total += (Long) argument;
            }
            entry.setValue(total);
            return total;
        }
    }

    public static class IncrementBy implements EntryProcessor<Long, Long, Long> {
        private final long delta;

        public IncrementBy(long delta) {
            this.delta = delta;
        }

        @Override
        public Long process(MutableEntry<Long, Long> entry, Object... arguments) {
            Long current = entry.getValue();
            long next = (current == null ? 0 : current) + delta;
            entry.setValue(next);
            return next;
        }
    }

    public static class GetAndReset implements EntryProcessor<Long, Long, Long> {
        @Override
        public Long process(MutableEntry<Long, Long> entry, Object... arguments) {
            Long old = entry.getValue();
            entry.setValue(0L);
            return old;
        }
    }

    public static class SaturatingAdd implements EntryProcessor<Long, Long, Long> {
        @Override
        public Long process(MutableEntry<Long, Long> entry, Object... arguments) {
            long a = entry.exists() ? entry.getValue() : 0;
            long b = (Long) arguments[0];
            long sum;
            try {
                sum = Math.addExact(a, b);
            } catch (ArithmeticException overflow) {
                sum = a < 0 ? Long.MIN_VALUE : Long.MAX_VALUE;
            }
            entry.setValue(sum);
            return sum;
        }
    }

    public static class HighWaterMark implements EntryProcessor<Long, Long, Boolean> {
        @Override
        public Boolean process(MutableEntry<Long, Long> entry, Object... arguments) {
            long seen = (Long) arguments[0];
            if (!entry.exists() || entry.getValue() < seen) {
                entry.setValue(seen);
                return true;
            }
            return false;
        }
    }

    public static class Decrement implements EntryProcessor<Long, Long, Long> {
        @Override
        public Long process(MutableEntry<Long, Long> entry, Object... arguments) {
            if (!entry.exists()) {
                throw new IllegalStateException("no counter for " + entry.getKey());
            }
            long left = entry.getValue() - 1;
            if (left <= 0) {
                entry.remove();
                return 0L;
            }
            entry.setValue(left);
            return left;
        }
    }

    public static class VotesOfEight implements EntryProcessor<Long, Long, Integer> {
        @Override
        public Integer process(MutableEntry<Long, Long> entry, Object... arguments) {
            long votes = entry.exists() ? entry.getValue() : 0L;
            int candidate = (Integer) arguments[0];
            int shift = candidate * 8;
            long count = (votes >>> shift) & 0xFF;
            if (count < 255) {
                votes += 1L << shift;
            }
            entry.setValue(votes);
            int winner = 0;
            long best = -1;
            for (int i = 0; i < 8; i++) {
                long of = (votes >>> (i * 8)) & 0xFF;
                if (of > best) {
                    best = of;
                    winner = i;
                }
            }
            return winner;
        }
    }

    public static class MinMax implements EntryProcessor<Long, Long, Long> {
        @Override
        public Long process(MutableEntry<Long, Long> entry, Object... arguments) {
            int sample = ((Number) arguments[0]).intValue();
            int low = sample;
            int high = sample;
            if (entry.exists()) {
                long packed = entry.getValue();
                low = Math.min((int) (packed >> 32), sample);
                high = Math.max((int) packed, sample);
            }
            entry.setValue((long) low << 32 | high & 0xFFFFFFFFL);
            return (long) high - low;
        }
    }

    public static class CountOfArguments implements EntryProcessor<Long, Long, Void> {
        @Override
        public Void process(MutableEntry<Long, Long> entry, Object... arguments) {
            entry.setValue((entry.exists() ? entry.getValue() : 0L) + arguments.length);
            return null;
        }
    }

    public static class ReadOnly implements EntryProcessor<Long, Long, Long> {
        @Override
        public Long process(MutableEntry<Long, Long> entry, Object... arguments) {
            return entry.getValue();
        }
    }
}
