import java.util.Arrays;
import javax.cache.processor.EntryProcessor;
import javax.cache.processor.MutableEntry;

/** Sketches: bloom filters, registers, histograms, samples in one long. */
public final class Sketches {
    private Sketches() { }

    static long mix(long z) {
        z = (z ^ z >>> 30) * 0xbf58476d1ce4e5b9L;
        z = (z ^ z >>> 27) * 0x94d049bb133111ebL;
        return z ^ z >>> 31;
    }

    public static class BloomAdd implements EntryProcessor<Long, Long, Boolean> {
        private static final int HASHES = 3;

        @Override
        public Boolean process(MutableEntry<Long, Long> entry, Object... arguments) {
            long bits = entry.exists() ? entry.getValue() : 0;
            long hash = mix((Long) arguments[0]);
            boolean seen = true;
            for (int i = 0; i < HASHES; i++) {
                long bit = 1L << (hash >>> i * 6 & 63);
                seen &= (bits & bit) != 0;
                bits |= bit;
            }
            entry.setValue(bits);
            return seen;
        }
    }

    public static class BloomCount implements EntryProcessor<Long, Long, Integer> {
        @Override
        public Integer process(MutableEntry<Long, Long> entry, Object... arguments) {
            return entry.exists() ? Long.bitCount(entry.getValue()) : 0;
        }
    }

    /** Eight HyperLogLog registers of six bits. */
    public static class HyperLogLogAdd implements EntryProcessor<Long, Long, Long> {
        @Override
        public Long process(MutableEntry<Long, Long> entry, Object... arguments) {
            long registers = entry.exists() ? entry.getValue() : 0;
            for (Object argument : arguments) {
                long hash = hash((Long) argument);
                int index = (int) (hash & 7);
                int rank = Long.numberOfLeadingZeros(hash) + 1;
                int shift = index * 6;
                if (rank > (registers >>> shift & 63)) {
                    registers = registers & ~(63L << shift) | (long) rank << shift;
                }
            }
            entry.setValue(registers);
            return registers;
        }

        private long hash(long x) {
            x ^= x >>> 33;
            x *= 0xff51afd7ed558ccdL;
            x ^= x >>> 33;
            x *= 0xc4ceb9fe1a85ec53L;
            return x ^ x >>> 33;
        }
    }

    public static class HyperLogLogEstimate implements EntryProcessor<Long, Long, Long> {
        @Override
        public Long process(MutableEntry<Long, Long> entry, Object... arguments) {
            long registers = entry.getValue();
            double sum = 0;
            for (int i = 0; i < 8; i++) {
                sum += Math.pow(2, -(registers >>> i * 6 & 63));
            }
            return Math.round(0.626 * 64 / sum);
        }
    }

    public static class CountMinAdd implements EntryProcessor<Long, Long, Long> {
        @Override
        public Long process(MutableEntry<Long, Long> entry, Object... arguments) {
            long sketch = entry.exists() ? entry.getValue() : 0L;
            long item = (Long) arguments[0];
            long least = Long.MAX_VALUE;
            for (int row = 0; row < 4; row++) {
                int column = (int) Math.floorMod(item * (2 * row + 1) + row, 4);
                int shift = (row * 4 + column) * 4;
                long count = sketch >>> shift & 15;
                if (count < 15) {
                    sketch += 1L << shift;
                    count++;
                }
                least = Math.min(least, count);
            }
            entry.setValue(sketch);
            return least;
        }
    }

    public static class LogHistogram implements EntryProcessor<Long, Long, Integer> {
        @Override
        public Integer process(MutableEntry<Long, Long> entry, Object... arguments) {
            long micros = (Long) arguments[0];
            int bucket = 0;
            while (micros > 1) {
                micros >>= 4;
                bucket++;
            }
            int shift = Math.min(bucket, 7) * 8;
            long histogram = entry.exists() ? entry.getValue() : 0;
            if ((histogram >>> shift & 0xFF) < 0xFF) {
                entry.setValue(histogram + (1L << shift));
            }
            return bucket;
        }
    }

    public static class Percentile implements EntryProcessor<Long, Long, Integer> {
        @Override
        public Integer process(MutableEntry<Long, Long> entry, Object... arguments) {
            int percent = (Integer) arguments[0];
            long histogram = entry.exists() ? entry.getValue() : 0;
            int total = 0;
            int[] buckets = new int[8];
            for (int i = 0; i < buckets.length; i++) {
                buckets[i] = (int) (histogram >>> i * 8 & 0xFF);
                total += buckets[i];
            }
            int wanted = (total * percent + 99) / 100;
            int seen = 0;
            for (int i = 0; i < buckets.length; i++) {
                seen += buckets[i];
                if (seen >= wanted) {
                    return i;
                }
            }
            return buckets.length - 1;
        }
    }

    public static class MinHash implements EntryProcessor<Long, Long, Long> {
        private static final long[] SEEDS = {0x9E3779B97F4A7C15L, 0xC2B2AE3D27D4EB4FL, 0x165667B19E3779F9L, 0x27D4EB2F165667C5L};

        @Override
        public Long process(MutableEntry<Long, Long> entry, Object... items) {
            long signature = entry.exists() ? entry.getValue() : -1L;
            for (int s = 0; s < SEEDS.length; s++) {
                long least = signature >>> s * 16 & 0xFFFF;
                for (Object item : items) {
                    long hash = ((Long) item ^ SEEDS[s]) * 0x2545F4914F6CDD1DL >>> 48;
                    least = Math.min(least, hash);
                }
                signature = signature & ~(0xFFFFL << s * 16) | least << s * 16;
            }
            entry.setValue(signature);
            return signature;
        }
    }

    public static class Reservoir implements EntryProcessor<Long, Long, Long> {
        @Override
        public Long process(MutableEntry<Long, Long> entry, Object... arguments) {
            long state = entry.exists() ? entry.getValue() : 0;
            int seen = (int) (state >>> 32) + 1;
            int sample = (Integer) arguments[0];
            long random = (Long) arguments[1];
            int kept = Long.remainderUnsigned(random, seen) == 0 ? sample : (int) state;
            entry.setValue((long) seen << 32 | kept & 0xFFFFFFFFL);
            return (long) kept;
        }
    }

    public static class Distinct implements EntryProcessor<Long, Long, Integer> {
        @Override
        public Integer process(MutableEntry<Long, Long> entry, Object... arguments) {
            long[] sorted = new long[arguments.length];
            for (int i = 0; i < arguments.length; i++) {
                sorted[i] = (Long) arguments[i];
            }
            Arrays.sort(sorted);
            int distinct = 0;
            for (int i = 0; i < sorted.length; i++) {
                if (i == 0 || sorted[i] != sorted[i - 1]) {
                    distinct++;
                }
            }
            entry.setValue((long) distinct);
            return distinct;
        }
    }

    public static class TopOfFour implements EntryProcessor<Long, Long, Long> {
        @Override
        public Long process(MutableEntry<Long, Long> entry, Object... arguments) {
            int item = (Integer) arguments[0] & 0xFFFF;
            long top = entry.exists() ? entry.getValue() : 0;
            int[] items = new int[5];
            for (int i = 0; i < 4; i++) {
                items[i] = (int) (top >>> i * 16 & 0xFFFF);
            }
            items[4] = item;
            for (int i = 4; i > 0 && items[i] > items[i - 1]; i--) {
                int swap = items[i];
                items[i] = items[i - 1];
                items[i - 1] = swap;
            }
            top = 0;
            for (int i = 3; i >= 0; i--) {
                top = top << 16 | items[i];
            }
            entry.setValue(top);
            return top;
        }
    }
}
