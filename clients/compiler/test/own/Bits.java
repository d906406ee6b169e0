import javax.cache.processor.EntryProcessor;
import javax.cache.processor.MutableEntry;

/** Processors that work on bits. */
public class Bits {
    /** The parity of the value's bits, bit by bit. */
    public static class Parity implements EntryProcessor<Long, Long, Integer> {
        public Integer process(MutableEntry<Long, Long> entry, Object... arguments) {
            int parity = 0;
            for (long rest = entry.getKey(), i = 0; i < 64; i++, rest >>>= 1) {
                parity ^= (int) rest & 1;
            }
            return parity;
        }
    }

    /** CRC-32 by a table that is computed when the class is loaded. */
    public static class Crc32 implements EntryProcessor<Long, Long, Long> {
        private static final int[] TABLE = new int[256];

        static {
            for (int i = 0; i < 256; i++) {
                int c = i;
                for (int k = 0; k < 8; k++) {
                    c = (c & 1) != 0 ? c >>> 1 ^ 0xEDB88320 : c >>> 1;
                }
                TABLE[i] = c;
            }
        }

        public Long process(MutableEntry<Long, Long> entry, Object... arguments) {
            int crc = -1;
            long value = entry.getKey();
            for (int i = 0; i < 8; i++) {
                crc = TABLE[(crc ^ (int) value) & 0xFF] ^ crc >>> 8;
                value >>>= 8;
            }
            return ~crc & 0xFFFFFFFFL;
        }
    }

    /** CRC-16 of all arguments. */
    public static class Crc16 implements EntryProcessor<Long, Long, Integer> {
        public Integer process(MutableEntry<Long, Long> entry, Object... arguments) {
            int crc = 0xFFFF;
            for (Object argument : arguments) {
                long word = argument instanceof Long ? (Long) argument : -1;
                for (int b = 0; b < 8; b++) {
                    crc ^= (int) (word >>> 8 * b) & 0xFF;
                    for (int k = 0; k < 8; k++) {
                        crc = (crc & 1) == 1 ? crc >>> 1 ^ 0xA001 : crc >>> 1;
                    }
                }
            }
            return crc;
        }
    }

    /** The positions of the value's set bits, packed as bytes, at most eight. */
    public static class Positions implements EntryProcessor<Long, Long, Long> {
        public Long process(MutableEntry<Long, Long> entry, Object... arguments) {
            long value = entry.exists() ? entry.getValue() : 0;
            long packed = 0;
            int found = 0;
            for (int i = 0; i < 64; i++) {
                if ((value >>> i & 1) == 0) {
                    continue;
                }
                packed = packed << 8 | i;
                if (++found == 8) {
                    break;
                }
            }
            return packed;
        }
    }

    /** A bit matrix of 8 by 8 times a vector. */
    public static class Matrix8 implements EntryProcessor<Long, Long, Integer> {
        public Integer process(MutableEntry<Long, Long> entry, Object... arguments) {
            long matrix = entry.getKey();
            int vector = arguments.length > 0 && arguments[0] instanceof Long ? (int) (long) (Long) arguments[0] : 0;
            int result = 0;
            for (int row = 0; row < 8; row++) {
                int sum = 0;
                for (int column = 0; column < 8; column++) {
                    sum ^= (int) (matrix >>> row * 8 + column) & vector >>> column & 1;
                }
                result |= sum << row;
            }
            return result;
        }
    }

    /** Interleaves the bits of two ints. */
    public static class Morton implements EntryProcessor<Long, Long, Long> {
        public Long process(MutableEntry<Long, Long> entry, Object... arguments) {
            int x = (int) (long) entry.getKey();
            int y = (int) (entry.getKey() >>> 32);
            long code = 0;
            for (int i = 31; i >= 0; --i) {
                code = code << 2 | (x >>> i & 1) << 1 | y >>> i & 1;
            }
            return code;
        }
    }

    /** The longest run of ones. */
    public static class LongestRun implements EntryProcessor<Long, Long, Integer> {
        public Integer process(MutableEntry<Long, Long> entry, Object... arguments) {
            long value = entry.getKey();
            int best = 0;
            int run = 0;
            int i = 0;
            while (i < Long.SIZE) {
                run = (value & 1L << i) != 0 ? run + 1 : 0;
                best = Math.max(best, run);
                i++;
            }
            return best;
        }
    }

    /** The Gray code of the key, decoded again as a check. */
    public static class Gray implements EntryProcessor<Long, Long, Long> {
        public Long process(MutableEntry<Long, Long> entry, Object... arguments) {
            long gray = entry.getKey() ^ entry.getKey() >>> 1;
            long back = gray;
            for (int shift = 1; shift < 64; shift *= 2) {
                back ^= back >>> shift;
            }
            return back == entry.getKey() ? gray : -1;
        }
    }
}
