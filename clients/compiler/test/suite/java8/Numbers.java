import javax.cache.processor.EntryProcessor;
import javax.cache.processor.MutableEntry;

/** Number theory and arithmetic. */
public final class Numbers {
    private Numbers() { }

    public static class Gcd implements EntryProcessor<Long, Long, Long> {
        @Override
        public Long process(MutableEntry<Long, Long> entry, Object... arguments) {
            long a = Math.abs(entry.exists() ? entry.getValue() : 0);
            long b = Math.abs((Long) arguments[0]);
            while (b != 0) {
                long r = a % b;
                a = b;
                b = r;
            }
            entry.setValue(a);
            return a;
        }
    }

    public static class Lcm implements EntryProcessor<Long, Long, Long> {
        @Override
        public Long process(MutableEntry<Long, Long> entry, Object... arguments) {
            long a = entry.exists() ? entry.getValue() : 1;
            long b = (Long) arguments[0];
            long lcm = a / gcd(a, b) * b;
            entry.setValue(lcm);
            return lcm;
        }

        private static long gcd(long a, long b) {
            return b == 0 ? a : gcd(b, a % b);
        }
    }

    public static class ModPow implements EntryProcessor<Long, Long, Long> {
        @Override
        public Long process(MutableEntry<Long, Long> entry, Object... arguments) {
            long base = (Long) arguments[0];
            long exponent = (Long) arguments[1];
            long modulus = 1_000_000_007L;
            long result = 1;
            base %= modulus;
            while (exponent > 0) {
                if ((exponent & 1) == 1) {
                    result = result * base % modulus;
                }
                base = base * base % modulus;
                exponent >>= 1;
            }
            entry.setValue(result);
            return result;
        }
    }

    public static class IntegerSqrt implements EntryProcessor<Long, Long, Long> {
        @Override
        public Long process(MutableEntry<Long, Long> entry, Object... arguments) {
            long n = entry.getValue();
            long lo = 0;
            long hi = 3_037_000_499L;
            while (lo < hi) {
                long mid = lo + hi + 1 >>> 1;
                if (mid * mid <= n) {
                    lo = mid;
                } else {
                    hi = mid - 1;
                }
            }
            return lo;
        }
    }

    public static class NewtonSqrt implements EntryProcessor<Long, Long, Long> {
        @Override
        public Long process(MutableEntry<Long, Long> entry, Object... arguments) {
            long n = entry.getValue();
            if (n < 2) {
                return n;
            }
            long x = n;
            long y = (x + 1) / 2;
            while (y < x) {
                x = y;
                y = (x + n / x) / 2;
            }
            return x;
        }
    }

    public static class Fibonacci implements EntryProcessor<Long, Long, Long> {
        @Override
        public Long process(MutableEntry<Long, Long> entry, Object... arguments) {
            int n = (Integer) arguments[0];
            if (n < 0 || n > 90) {
                throw new IllegalArgumentException();
            }
            long a = 0;
            long b = 1;
            for (int i = 0; i < n; i++) {
                long next = a + b;
                a = b;
                b = next;
            }
            entry.setValue(a);
            return a;
        }
    }

    public static class Collatz implements EntryProcessor<Long, Long, Integer> {
        @Override
        public Integer process(MutableEntry<Long, Long> entry, Object... arguments) {
            long n = entry.getKey();
            int steps = 0;
            while (n > 1 && steps < 500) {
                n = n % 2 == 0 ? n / 2 : 3 * n + 1;
                steps++;
            }
            entry.setValue((long) steps);
            return steps;
        }
    }

    public static class DigitSum implements EntryProcessor<Long, Long, Integer> {
        @Override
        public Integer process(MutableEntry<Long, Long> entry, Object... arguments) {
            long n = Math.abs(entry.getValue());
            int sum = 0;
            while (n > 0) {
                sum += n % 10;
                n /= 10;
            }
            return sum;
        }
    }

    public static class Reverse implements EntryProcessor<Long, Long, Long> {
        @Override
        public Long process(MutableEntry<Long, Long> entry, Object... arguments) {
            long rest = entry.getValue();
            long reversed = 0;
            do {
                reversed = reversed * 10 + rest % 10;
                rest = rest / 10;
            } while (rest != 0);
            entry.setValue(reversed);
            return reversed;
        }
    }

    public static class Palindrome implements EntryProcessor<Long, Long, Boolean> {
        @Override
        public Boolean process(MutableEntry<Long, Long> entry, Object... arguments) {
            String text = Long.toString(entry.getKey());
            return new StringBuilder(text).reverse().toString().equals(text);
        }
    }

    public static class IsPrime implements EntryProcessor<Long, Long, Integer> {
        @Override
        public Integer process(MutableEntry<Long, Long> entry, Object... arguments) {
            long n = entry.getKey();
            if (n < 2) {
                return 0;
            }
            for (long d = 2; d * d <= n; d++) {
                if (n % d == 0) {
                    return 0;
                }
            }
            return 1;
        }
    }

    public static class PowersOfTwo implements EntryProcessor<Long, Long, Integer> {
        @Override
        public Integer process(MutableEntry<Long, Long> entry, Object... arguments) {
            int twos = 0;
            int n = (Integer) arguments[0];
            while (n != 0 && n % 2 == 0) {
                n = n / 2;
                twos++;
            }
            return twos;
        }
    }

    public static class Log2 implements EntryProcessor<Long, Long, Integer> {
        @Override
        public Integer process(MutableEntry<Long, Long> entry, Object... arguments) {
            int log = -1;
            int n = (Integer) arguments[0];
            while (n > 0) {
                n >>= 1;
                log++;
            }
            entry.setValue((long) log);
            return log;
        }
    }

    public static class CountBits implements EntryProcessor<Long, Long, Integer> {
        @Override
        public Integer process(MutableEntry<Long, Long> entry, Object... arguments) {
            int count = 0;
            for (int x = (Integer) arguments[0]; x != 0; x &= x - 1) {
                count++;
            }
            return count;
        }
    }

    public static class GrayDecode implements EntryProcessor<Long, Long, Long> {
        @Override
        public Long process(MutableEntry<Long, Long> entry, Object... arguments) {
            long gray = entry.getValue();
            long mask = gray;
            while (mask != 0) {
                mask >>>= 1;
                gray ^= mask;
            }
            return gray;
        }
    }

    public static class ExtendedGcd implements EntryProcessor<Long, Long, Long> {
        @Override
        public Long process(MutableEntry<Long, Long> entry, Object... arguments) {
            long m = (Long) arguments[1];
            long r0 = m;
            long r1 = Math.floorMod((Long) arguments[0], m);
            long t0 = 0;
            long t1 = 1;
            while (r1 > 0) {
                long q = r0 / r1;
                long r = r0 - q * r1;
                r0 = r1;
                r1 = r;
                long t = t0 - q * t1;
                t0 = t1;
                t1 = t;
            }
            return t0 < 0 ? t0 + m : t0;
        }
    }

    public static class Multiply implements EntryProcessor<Long, Long, Long> {
        @Override
        public Long process(MutableEntry<Long, Long> entry, Object... arguments) {
            long a = (Long) arguments[0];
            int b = (Integer) arguments[1];
            long product = 0;
            while (b != 0) {
                if ((b & 1) != 0) {
                    product += a;
                }
                a <<= 1;
                b >>>= 1;
            }
            entry.setValue(product);
            return product;
        }
    }
}
