import java.util.Objects;
import javax.cache.processor.EntryProcessor;
import javax.cache.processor.MutableEntry;

/** Processors that limit, count and pack. */
public class Windows {
    /** Token buckets of three windows, packed in one long. */
    public static class Buckets implements EntryProcessor<Long, Long, Integer> {
        private static final int[] CAPACITY = {10, 100, 1000};
        private static final int[] REFILL = {1, 5, 20};

        public Integer process(MutableEntry<Long, Long> entry, Object... arguments) {
            long packed = entry.exists() ? entry.getValue() : -1;
            long elapsed = arguments.length > 0 ? (Long) arguments[0] & 0xFF : 1;
            long next = 0;
            boolean allowed = true;
            for (int i = CAPACITY.length - 1; i >= 0; i--) {
                long tokens = packed >>> 16 * i & 0xFFFF;
                tokens = Math.min(CAPACITY[i], tokens + elapsed * REFILL[i]);
                allowed &= tokens > 0;
                next = next << 16 | tokens;
            }
            for (int i = 0; i < 3 && allowed; i++) {
                next -= 1L << 16 * i;
            }
            entry.setValue(next);
            return allowed ? 1 : 0;
        }
    }

    /** A sliding window of eight one-byte counters. */
    public static class Sliding implements EntryProcessor<Long, Long, Integer> {
        public Integer process(MutableEntry<Long, Long> entry, Object... arguments) {
            long window = entry.exists() ? entry.getValue() : 0;
            int by = arguments.length > 0 && arguments[0] instanceof Integer ? (Integer) arguments[0] & 7 : 1;
            for (int i = 0; i < by; i++) {
                window <<= 8;
            }
            if ((window & 0xFF) < 0xFF) {
                window++;
            }
            entry.setValue(window);
            int sum = 0;
            for (long rest = window, i = 8; i > 0; i--, rest >>>= 8) {
                sum += (int) (rest & 0xFF);
            }
            return sum;
        }
    }

    /** Base 64 digits of the value, each mapped through ranges, summed as a hash. */
    public static class Base64 implements EntryProcessor<Long, Long, Long> {
        public Long process(MutableEntry<Long, Long> entry, Object... arguments) {
            long hash = 0;
            for (int shift = 60; shift >= 0; shift -= 6) {
                hash = hash * 31 + letter((int) (entry.getKey() >>> shift) & 63);
            }
            return hash;
        }

        private static char letter(int digit) {
            if (digit < 26) {
                return (char) ('A' + digit);
            } else if (digit < 52) {
                return (char) ('a' + digit - 26);
            }
            return digit < 62 ? (char) ('0' + digit - 52) : digit == 62 ? '+' : '/';
        }
    }

    /** Bytes in an array of bytes, rotated. */
    public static class Rotated implements EntryProcessor<Long, Long, Long> {
        public Long process(MutableEntry<Long, Long> entry, Object... arguments) {
            byte[] bytes = new byte[8];
            for (int i = 0; i < bytes.length; i++) {
                bytes[i] = (byte) (entry.getKey() >> 8 * i);
            }
            byte first = bytes[0];
            for (int i = 1; i < bytes.length; i++) {
                bytes[i - 1] = bytes[i];
            }
            bytes[7] = first;
            long value = 0;
            for (byte b : bytes) {
                value = value * 256 + b;
            }
            return value;
        }
    }

    /** Votes: counts the arguments that are equal to the value. */
    public static class Votes implements EntryProcessor<Long, Long, Integer> {
        public Integer process(MutableEntry<Long, Long> entry, Object... arguments) {
            int votes = 0;
            for (Object vote : arguments) {
                if (Objects.equals(vote, entry.getValue()) || vote != null && vote.equals(entry.getKey())) {
                    votes++;
                }
            }
            return votes;
        }
    }

    /** Sets the value to the largest of itself and the arguments, and returns null. */
    public static class Largest implements EntryProcessor<Long, Long, Void> {
        public Void process(MutableEntry<Long, Long> entry, Object... arguments) {
            Long largest = entry.getValue();
            for (Object argument : arguments) {
                Long one = (Long) argument;
                if (largest == null || one.compareTo(largest) > 0) {
                    largest = one;
                }
            }
            if (largest != null) {
                entry.setValue(largest);
            }
            return null;
        }
    }

    /** A game of life on a board of 8 by 8. */
    public static class Life implements EntryProcessor<Long, Long, Long> {
        public Long process(MutableEntry<Long, Long> entry, Object... arguments) {
            long board = entry.getKey();
            long next = 0;
            for (int y = 0; y < 8; y++) {
                for (int x = 0; x < 8; x++) {
                    int around = neighbours(board, x, y);
                    if (around == 3 || around == 2 && (board >>> y * 8 + x & 1) == 1) {
                        next |= 1L << y * 8 + x;
                    }
                }
            }
            return next;
        }

        private static int neighbours(long board, int x, int y) {
            int count = 0;
            for (int dy = -1; dy <= 1; dy++) {
                for (int dx = -1; dx <= 1; dx++) {
                    if (dx != 0 || dy != 0) {
                        count += (int) (board >>> (y + dy & 7) * 8 + (x + dx & 7)) & 1;
                    }
                }
            }
            return count;
        }
    }

    /** An xorshift generator advanced by several steps, with a switch in a loop. */
    public static class Shifts implements EntryProcessor<Long, Long, Long> {
        public Long process(MutableEntry<Long, Long> entry, Object... arguments) {
            long x = entry.getKey() | 1;
            for (int i = 0; i < 9; i++) {
                switch (i % 3) {
                    case 0:
                        x ^= x << 13;
                        break;
                    case 1:
                        x ^= x >>> 7;
                        continue;
                    default:
                        x ^= x << 17;
                }
                x += i;
            }
            return x;
        }
    }

    /** A lock with slots of four bits: returns the first free one. */
    public static class Slots implements EntryProcessor<Long, Long, Integer> {
        public Integer process(MutableEntry<Long, Long> entry, Object... arguments) {
            long slots = entry.exists() ? entry.getValue() : 0;
            int holder = arguments.length > 0 && arguments[0] instanceof Long ? (int) ((Long) arguments[0] & 15) : 1;
            int at = 0;
            while (at < 16 && (slots >>> 4 * at & 15) != 0) {
                at++;
            }
            if (at == 16) {
                return null;
            }
            entry.setValue(slots | (long) holder << 4 * at);
            return at;
        }
    }

    /** A state machine over the value's two-bit symbols. */
    public static class Machine implements EntryProcessor<Long, Long, Integer> {
        private static final int[] NEXT = {1, 0, 2, 3, 0, 2, 1, 3, 3, 1, 0, 2, 2, 3, 1, 0};

        public Integer process(MutableEntry<Long, Long> entry, Object... arguments) {
            int state = 0;
            for (int i = 0; i < 32; i++) {
                state = NEXT[state * 4 + ((int) (entry.getKey() >>> 2 * i) & 3)];
            }
            return state;
        }
    }

    /** A sum by a loop whose limit depends on the number of arguments and is at most 12. */
    public static class Limited implements EntryProcessor<Long, Long, Long> {
        public Long process(MutableEntry<Long, Long> entry, Object... arguments) {
            int limit = Math.min(arguments.length * 2, 12);
            long sum = 0;
            for (int i = 0; i < limit; i++) {
                sum += (i + 1) * entry.getKey();
            }
            return sum;
        }
    }

    /** A fold over pairs of arguments. */
    public static class Pairs implements EntryProcessor<Long, Long, Long> {
        public Long process(MutableEntry<Long, Long> entry, Object... arguments) {
            long sum = 0;
            for (int i = 0; i + 1 < arguments.length; i += 2) {
                sum += number(arguments[i]) * number(arguments[i + 1]);
            }
            return sum;
        }

        private static long number(Object it) {
            return it instanceof Number ? ((Number) it).longValue() : 0;
        }
    }
}
