import java.util.Arrays;
import java.util.stream.LongStream;
import javax.cache.processor.EntryProcessor;
import javax.cache.processor.MutableEntry;

/** Means, medians, smoothing and outliers. */
public final class Statistics {
    private Statistics() { }

    private static long[] numbers(Object[] arguments) {
        var numbers = new long[arguments.length];
        for (var i = 0; i < arguments.length; i++) {
            numbers[i] = ((Number) arguments[i]).longValue();
        }
        return numbers;
    }

    public static class Mean implements EntryProcessor<Long, Long, Long> {
        @Override
        public Long process(MutableEntry<Long, Long> entry, Object... arguments) {
            var sum = 0L;
            var count = 0;
            for (var argument : arguments) {
                if (argument instanceof Long) {
                    sum += (Long) argument;
                    count++;
                }
            }
            if (count == 0) {
                return null;
            }
            entry.setValue(sum / count);
            return sum / count;
        }
    }

    public static class Median implements EntryProcessor<Long, Long, Long> {
        @Override
        public Long process(MutableEntry<Long, Long> entry, Object... arguments) {
            var sorted = numbers(arguments);
            Arrays.sort(sorted);
            var middle = sorted.length / 2;
            var median = sorted.length % 2 == 1 ? sorted[middle] : (sorted[middle - 1] + sorted[middle]) / 2;
            entry.setValue(median);
            return median;
        }
    }

    public static class MedianByStream implements EntryProcessor<Long, Long, Long> {
        @Override
        public Long process(MutableEntry<Long, Long> entry, Object... arguments) {
            return Arrays.stream(arguments).mapToLong(it -> (Long) it).sorted().skip(arguments.length / 2).findFirst().orElse(0);
        }
    }

    public static class SumOfSquares implements EntryProcessor<Long, Long, Long> {
        @Override
        public Long process(MutableEntry<Long, Long> entry, Object... arguments) {
            return LongStream.rangeClosed(1, 20).map(it -> it * it).sum() + entry.getKey();
        }
    }

    public static class Smoothed implements EntryProcessor<Long, Long, Long> {
        private static final int SHIFT = 3;

        @Override
        public Long process(MutableEntry<Long, Long> entry, Object... arguments) {
            var sample = (Long) arguments[0];
            var smoothed = entry.exists() ? entry.getValue() + (sample - entry.getValue() >> SHIFT) : sample;
            entry.setValue(smoothed);
            return smoothed;
        }
    }

    public static class Ewma implements EntryProcessor<Long, Long, Long> {
        private final double alpha;

        public Ewma(double alpha) {
            this.alpha = alpha;
        }

        @Override
        public Long process(MutableEntry<Long, Long> entry, Object... arguments) {
            var sample = (Long) arguments[0];
            var next = entry.exists() ? Math.round(alpha * sample + (1 - alpha) * entry.getValue()) : sample;
            entry.setValue(next);
            return next;
        }
    }

    public static class Variance implements EntryProcessor<Long, Long, Long> {
        @Override
        public Long process(MutableEntry<Long, Long> entry, Object... arguments) {
            var n = arguments.length;
            if (n < 2) {
                return 0L;
            }
            long sum = 0;
            for (int i = 0; i < n; i++) {
                sum += (Long) arguments[i];
            }
            var mean = sum / n;
            long squares = 0;
            for (int i = 0; i < n; i++) {
                var d = (Long) arguments[i] - mean;
                squares += d * d;
            }
            return squares / (n - 1);
        }
    }

    public static class MovingAverage implements EntryProcessor<Long, Long, Long> {
        @Override
        public Long process(MutableEntry<Long, Long> entry, Object... arguments) {
            var ring = entry.exists() ? entry.getValue() : 0L;
            ring = ring << 8 | (Integer) arguments[0] & 0xFF;
            entry.setValue(ring);
            var sum = 0;
            for (var rest = ring; rest != 0; rest >>>= 8) {
                sum += rest & 0xFF;
            }
            return (long) sum / 8;
        }
    }

    public static class Outlier implements EntryProcessor<Long, Long, Boolean> {
        @Override
        public Boolean process(MutableEntry<Long, Long> entry, Object... arguments) {
            var sample = (Long) arguments[0];
            var usual = entry.exists() ? entry.getValue() : sample;
            var isOutlier = Math.abs(sample - usual) > 3 * Math.abs(usual) / 2;
            if (!isOutlier) {
                entry.setValue((usual * 7 + sample) / 8);
            }
            return isOutlier;
        }
    }

    public static class Rank implements EntryProcessor<Long, Long, Integer> {
        @Override
        public Integer process(MutableEntry<Long, Long> entry, Object... arguments) {
            var bounds = new long[] {10, 100, 1_000, 10_000, 100_000, 1_000_000};
            var lo = 0;
            var hi = bounds.length;
            var wanted = (Long) arguments[0];
            while (lo < hi) {
                var mid = lo + hi >>> 1;
                if (bounds[mid] < wanted) {
                    lo = mid + 1;
                } else {
                    hi = mid;
                }
            }
            entry.setValue((long) lo);
            return lo;
        }
    }

    public static class InsertionSorted implements EntryProcessor<Long, Long, Long> {
        @Override
        public Long process(MutableEntry<Long, Long> entry, Object... arguments) {
            var all = new int[8];
            var count = Math.min(arguments.length, all.length);
            for (int i = 0; i < count; i++) {
                var value = (Integer) arguments[i];
                var at = i;
                while (at > 0 && all[at - 1] > value) {
                    all[at] = all[at - 1];
                    at--;
                }
                all[at] = value;
            }
            var range = count == 0 ? 0L : (long) all[count - 1] - all[0];
            entry.setValue(range);
            return range;
        }
    }

    public static class BucketOf implements EntryProcessor<Long, Long, Integer> {
        @Override
        public Integer process(MutableEntry<Long, Long> entry, Object... arguments) {
            var value = (Long) arguments[0];
            var width = (Long) arguments[1];
            var bucket = 0;
            while (value >= width) {
                value -= width;
                bucket++;
            }
            return bucket;
        }
    }
}
