import javax.cache.processor.EntryProcessor;
import javax.cache.processor.MutableEntry;

/** Checksums, hashes and check digits. */
public final class Checksums {
    private Checksums() { }

    public static class Crc16 implements EntryProcessor<Long, Long, Integer> {
        @Override
        public Integer process(MutableEntry<Long, Long> entry, Object... arguments) {
            long value = entry.getValue();
            int crc = 0xFFFF;
            for (int i = 0; i < 8; i++) {
                crc ^= (byte) (value >>> 8 * i) & 0xFF;
                for (int bit = 0; bit < 8; bit++) {
                    if ((crc & 1) != 0) {
                        crc = crc >>> 1 ^ 0xA001;
                    } else {
                        crc >>>= 1;
                    }
                }
            }
            return crc;
        }
    }

    public static class Crc32Table implements EntryProcessor<Long, Long, Long> {
        private static final int[] TABLE = new int[256];

        static {
            for (int i = 0; i < 256; i++) {
                int c = i;
                for (int k = 0; k < 8; k++) {
                    c = (c & 1) != 0 ? 0xEDB88320 ^ c >>> 1 : c >>> 1;
                }
                TABLE[i] = c;
            }
        }

        @Override
        public Long process(MutableEntry<Long, Long> entry, Object... arguments) {
            long value = (Long) arguments[0];
            int crc = -1;
            for (int i = 0; i < 8; i++) {
                crc = TABLE[(crc ^ (int) (value >>> 8 * i)) & 0xFF] ^ crc >>> 8;
            }
            long result = ~crc & 0xFFFFFFFFL;
            entry.setValue(result);
            return result;
        }
    }

    public static class Adler32 implements EntryProcessor<Long, Long, Long> {
        private static final int MOD = 65521;

        @Override
        public Long process(MutableEntry<Long, Long> entry, Object... arguments) {
            int a = 1;
            int b = 0;
            for (Object argument : arguments) {
                long word = ((Number) argument).longValue();
                for (int i = 0; i < Long.BYTES; i++) {
                    a = (a + (int) (word & 0xFF)) % MOD;
                    b = (b + a) % MOD;
                    word >>>= 8;
                }
            }
            long sum = (long) b << 16 | a;
            entry.setValue(sum);
            return sum;
        }
    }

    public static class Luhn implements EntryProcessor<Long, Long, Boolean> {
        @Override
        public Boolean process(MutableEntry<Long, Long> entry, Object... arguments) {
            long number = (Long) arguments[0];
            int sum = 0;
            boolean twice = false;
            while (number > 0) {
                int digit = (int) (number % 10);
                if (twice) {
                    digit *= 2;
                    if (digit > 9) {
                        digit -= 9;
                    }
                }
                sum += digit;
                twice = !twice;
                number /= 10;
            }
            return sum % 10 == 0;
        }
    }

    public static class LuhnDigit implements EntryProcessor<Long, Long, Integer> {
        @Override
        public Integer process(MutableEntry<Long, Long> entry, Object... arguments) {
            long left = entry.getKey();
            int sum = 0;
            for (int place = 0; left != 0; place++) {
                int digit = (int) (left % 10);
                if (place % 2 == 0) {
                    digit = digit * 2 > 9 ? digit * 2 - 9 : digit * 2;
                }
                sum += digit;
                left /= 10;
            }
            return (10 - sum % 10) % 10;
        }
    }

    public static class Fnv1a implements EntryProcessor<Long, Long, Long> {
        @Override
        public Long process(MutableEntry<Long, Long> entry, Object... arguments) {
            long hash = 0xcbf29ce484222325L;
            for (Object argument : arguments) {
                long word = (Long) argument;
                do {
                    hash ^= word & 0xFF;
                    hash *= 0x100000001b3L;
                    word >>>= 8;
                } while (word != 0);
            }
            entry.setValue(hash);
            return hash;
        }
    }

    public static class Murmur implements EntryProcessor<Long, Long, Long> {
        @Override
        public Long process(MutableEntry<Long, Long> entry, Object... arguments) {
            long h = entry.exists() ? entry.getValue() : 0;
            for (int i = 0; i < arguments.length; i++) {
                long k = (Long) arguments[i];
                k *= 0x87c37b91114253d5L;
                k = Long.rotateLeft(k, 31);
                k *= 0x4cf5ad432745937fL;
                h ^= k;
                h = Long.rotateLeft(h, 27) * 5 + 0x52dce729;
            }
            entry.setValue(h);
            return h;
        }
    }

    public static class Isbn13 implements EntryProcessor<Long, Long, Boolean> {
        @Override
        public Boolean process(MutableEntry<Long, Long> entry, Object... arguments) {
            long isbn = (Long) arguments[0];
            int sum = 0;
            for (int i = 0; i < 13; i++) {
                sum += isbn % 10 * (i % 2 == 0 ? 1 : 3);
                isbn /= 10;
            }
            return sum % 10 == 0;
        }
    }

    public static class Damm implements EntryProcessor<Long, Long, Integer> {
        private static final int[][] TABLE = {
            {0, 3, 1, 7, 5, 9, 8, 6, 4, 2}, {7, 0, 9, 2, 1, 5, 4, 8, 6, 3}, {4, 2, 0, 6, 8, 7, 1, 3, 5, 9}, {1, 7, 5, 0, 9, 8, 3, 4, 2, 6},
            {6, 1, 2, 3, 0, 4, 5, 9, 7, 8}, {3, 6, 7, 4, 2, 0, 9, 5, 8, 1}, {5, 8, 6, 9, 7, 2, 0, 1, 3, 4}, {8, 9, 4, 5, 3, 6, 2, 0, 1, 7},
            {9, 4, 3, 8, 6, 1, 7, 2, 0, 5}, {2, 5, 8, 1, 4, 3, 6, 7, 9, 0}};

        @Override
        public Integer process(MutableEntry<Long, Long> entry, Object... arguments) {
            long number = (Long) arguments[0];
            int interim = 0;
            for (long power = 1_000_000_000L; power > 0; power /= 10) {
                interim = TABLE[interim][(int) (number / power % 10)];
            }
            return interim;
        }
    }

    public static class Mod97 implements EntryProcessor<Long, Long, Integer> {
        @Override
        public Integer process(MutableEntry<Long, Long> entry, Object... arguments) {
            int rest = 0;
            for (Object part : arguments) {
                long digits = (Long) part;
                long scale = 1;
                while (scale <= digits / 10) {
                    scale *= 10;
                }
                while (scale > 0) {
                    rest = (int) ((rest * 10 + digits / scale % 10) % 97);
                    scale /= 10;
                }
            }
            return 98 - rest;
        }
    }

    public static class Hamming implements EntryProcessor<Long, Long, Integer> {
        @Override
        public Integer process(MutableEntry<Long, Long> entry, Object... arguments) {
            long x = entry.getValue() ^ (Long) arguments[0];
            int distance = 0;
            while (x != 0) {
                distance += x & 1;
                x >>>= 1;
            }
            return distance;
        }
    }

    public static class Parity implements EntryProcessor<Long, Long, Integer> {
        @Override
        public Integer process(MutableEntry<Long, Long> entry, Object... arguments) {
            long x = entry.getKey();
            for (int shift = 32; shift > 0; shift >>= 1) {
                x ^= x >>> shift;
            }
            return (int) (x & 1);
        }
    }

    public static class HexDigest implements EntryProcessor<Long, Long, Integer> {
        @Override
        public Integer process(MutableEntry<Long, Long> entry, Object... arguments) {
            return Long.toHexString(entry.getValue()).hashCode();
        }
    }
}
