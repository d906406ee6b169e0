import java.util.Arrays;
import javax.cache.processor.EntryProcessor;
import javax.cache.processor.MutableEntry;

/** Processors that sort, search and count. */
public class Sorting {
    /** The arguments sorted by insertion, packed as bytes. */
    public static class Insertion implements EntryProcessor<Long, Long, Long> {
        public Long process(MutableEntry<Long, Long> entry, Object... arguments) {
            int[] values = new int[8];
            int count = 0;
            for (Object argument : arguments) {
                values[count++] = argument == null ? 0 : (int) ((Number) argument).longValue() & 0xFF;
            }
            for (int i = 1; i < values.length; i++) {
                int value = values[i];
                int k = i;
                while (k > 0 && values[k - 1] > value) {
                    values[k] = values[k - 1];
                    k--;
                }
                values[k] = value;
            }
            long packed = 0;
            for (int value : values) {
                packed = packed << 8 | value;
            }
            return packed;
        }
    }

    /** Bubble sort of the value's bytes, with an early exit. */
    public static class Bubble implements EntryProcessor<Long, Long, Long> {
        public Long process(MutableEntry<Long, Long> entry, Object... arguments) {
            long[] bytes = new long[8];
            for (int i = 0; i < 8; i++) {
                bytes[i] = entry.getKey() >>> 8 * i & 0xFF;
            }
            for (int pass = 0; pass < 7; pass++) {
                boolean swapped = false;
                for (int i = 0; i < 7 - pass; i++) {
                    if (bytes[i] > bytes[i + 1]) {
                        long other = bytes[i];
                        bytes[i] = bytes[i + 1];
                        bytes[i + 1] = other;
                        swapped = true;
                    }
                }
                if (!swapped) {
                    break;
                }
            }
            return pack(bytes);
        }

        private static long pack(long[] bytes) {
            long packed = 0;
            for (int i = bytes.length; --i >= 0;) {
                packed = packed << 8 | bytes[i];
            }
            return packed;
        }
    }

    /** The median, with Arrays.sort. */
    public static class LibrarySort implements EntryProcessor<Long, Long, Long> {
        public Long process(MutableEntry<Long, Long> entry, Object... arguments) {
            long[] values = new long[5];
            Arrays.fill(values, entry.getKey());
            for (int i = 0; i < values.length && i < arguments.length; i++) {
                values[i] = (Long) arguments[i];
            }
            Arrays.sort(values);
            return values[2];
        }
    }

    /** Binary search in a table. */
    public static class BinarySearch implements EntryProcessor<Long, Long, Integer> {
        private static final long[] TABLE = {2, 3, 5, 7, 11, 13, 17, 19, 23, 29, 31, 37, 41, 43, 47, 53};

        public Integer process(MutableEntry<Long, Long> entry, Object... arguments) {
            int low = 0;
            int high = TABLE.length - 1;
            while (low <= high) {
                int middle = low + high >>> 1;
                if (TABLE[middle] < entry.getKey()) {
                    low = middle + 1;
                } else if (TABLE[middle] > entry.getKey()) {
                    high = middle - 1;
                } else {
                    return middle;
                }
            }
            return -(low + 1);
        }
    }

    /** A histogram of the value's hexadecimal digits; the most frequent one. */
    public static class Histogram implements EntryProcessor<Long, Long, Integer> {
        public Integer process(MutableEntry<Long, Long> entry, Object... arguments) {
            int[] counts = new int[16];
            for (int i = 0; i < 16; i++) {
                counts[(int) (entry.getKey() >>> 4 * i) & 15]++;
            }
            int best = 0;
            for (int digit = 1; digit < counts.length; digit++) {
                if (counts[digit] > counts[best]) {
                    best = digit;
                }
            }
            return best;
        }
    }

    /** Whether the arguments are all different. */
    public static class Distinct implements EntryProcessor<Long, Long, Integer> {
        public Integer process(MutableEntry<Long, Long> entry, Object... arguments) {
            for (int i = 0; i < arguments.length; i++) {
                for (int k = i + 1; k < arguments.length; k++) {
                    if (arguments[i] != null && arguments[i].equals(arguments[k])) {
                        return 0;
                    }
                }
            }
            return 1;
        }
    }

    /** The difference of the greatest and the least argument; uses labels. */
    public static class Spread implements EntryProcessor<Long, Long, Long> {
        public Long process(MutableEntry<Long, Long> entry, Object... arguments) {
            long least = Long.MAX_VALUE;
            long greatest = Long.MIN_VALUE;
            scan:
            for (int i = arguments.length - 1; i >= 0; i--) {
                Object one = arguments[i];
                for (int bit = 0; bit < 3; bit++) {
                    if (!(one instanceof Long)) {
                        continue scan;
                    } else if ((Long) one == 13L << bit) {
                        break scan;
                    }
                }
                least = Long.min(least, (Long) one);
                greatest = Long.max(greatest, (Long) one);
            }
            return greatest < least ? null : (Long) (greatest - least);
        }
    }

    /** The change of an amount in coins. */
    public static class Change implements EntryProcessor<Long, Long, Long> {
        private static final int[] COINS = {200, 100, 50, 20, 10, 5, 2, 1};

        public Long process(MutableEntry<Long, Long> entry, Object... arguments) {
            int amount = (int) (entry.getKey() & 0x3FF);
            long coins = 0;
            for (int coin : COINS) {
                coins = coins * 16 + amount / coin;
                amount %= coin;
            }
            return coins;
        }
    }

    /** The Levenshtein distance of two words of four bytes. */
    public static class Distance implements EntryProcessor<Long, Long, Integer> {
        public Integer process(MutableEntry<Long, Long> entry, Object... arguments) {
            long a = entry.getKey();
            long b = entry.exists() ? entry.getValue() : 0;
            int[] row = new int[5];
            for (int i = 0; i <= 4; i++) {
                row[i] = i;
            }
            for (int i = 1; i <= 4; i++) {
                int corner = row[0];
                row[0] = i;
                for (int k = 1; k <= 4; k++) {
                    int above = row[k];
                    int differs = (a >>> 8 * i & 255) == (b >>> 8 * k & 255) ? 0 : 1;
                    row[k] = Math.min(Math.min(row[k], row[k - 1]) + 1, corner + differs);
                    corner = above;
                }
            }
            return row[4];
        }
    }
}
