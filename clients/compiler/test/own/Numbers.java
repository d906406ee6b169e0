import javax.cache.processor.EntryProcessor;
import javax.cache.processor.MutableEntry;

/** Processors that do arithmetic. */
public class Numbers {
    /** Euclid's greatest common divisor, with a limit on the iterations. */
    public static class Gcd implements EntryProcessor<Long, Long, Long> {
        public Long process(MutableEntry<Long, Long> entry, Object... arguments) {
            long a = Math.abs(entry.getKey());
            long b = entry.exists() ? Math.abs(entry.getValue()) : 0;
            for (int i = 0; i < 96 && b != 0; i++) {
                long rest = a % b;
                a = b;
                b = rest;
            }
            return a;
        }
    }

    /** The decimal digits of the value, reversed. */
    public static class Reversed implements EntryProcessor<Long, Long, Long> {
        public Long process(MutableEntry<Long, Long> entry, Object... arguments) {
            long rest = entry.getKey();
            long reversed = 0;
            int digits = 0;
            while (rest != 0 && digits++ < 19) {
                reversed = reversed * 10 + rest % 10;
                rest /= 10;
            }
            return reversed;
        }
    }

    /** Luhn's check digit. */
    public static class Luhn implements EntryProcessor<Long, Long, Integer> {
        public Integer process(MutableEntry<Long, Long> entry, Object... arguments) {
            long number = Math.abs(entry.getKey() % 10_000_000_000_000_000L);
            int sum = 0;
            boolean doubles = true;
            for (int i = 0; i < 16; i++, doubles = !doubles) {
                int digit = (int) (number % 10);
                number /= 10;
                if (doubles) {
                    digit *= 2;
                    digit = digit > 9 ? digit - 9 : digit;
                }
                sum += digit;
            }
            return (10 - sum % 10) % 10;
        }
    }

    /** A power by repeated squaring; the exponent is masked and ends the loop. */
    public static class SmallPower implements EntryProcessor<Long, Long, Long> {
        public Long process(MutableEntry<Long, Long> entry, Object... arguments) {
            long base = entry.getKey();
            int exponent = arguments.length == 0 || !(arguments[0] instanceof Integer) ? 3 : (Integer) arguments[0] & 15;
            long result = 1;
            for (int i = 0; i < exponent; i++) {
                result *= base;
            }
            return result;
        }
    }

    /** The number of Collatz steps to one, at most 60. */
    public static class Collatz implements EntryProcessor<Long, Long, Integer> {
        public Integer process(MutableEntry<Long, Long> entry, Object... arguments) {
            long n = (entry.getKey() & 0xFFFFF) + 1;
            int steps = 0;
            do {
                if (n == 1) {
                    return steps;
                }
                n = (n & 1) == 0 ? n / 2 : 3 * n + 1;
            } while (++steps < 60);
            return -1;
        }
    }

    /** The primes below 64 as bits of a long, by a sieve. */
    public static class Sieve implements EntryProcessor<Long, Long, Long> {
        public Long process(MutableEntry<Long, Long> entry, Object... arguments) {
            boolean[] composite = new boolean[64];
            long primes = 0;
            for (int i = 2; i < composite.length; i++) {
                if (composite[i]) {
                    continue;
                }
                primes |= 1L << i;
                for (int k = i * i; k < composite.length; k += i) {
                    composite[k] = true;
                }
            }
            return primes ^ entry.getKey();
        }
    }

    /** Fibonacci modulo a number. */
    public static class Fibonacci implements EntryProcessor<Long, Long, Long> {
        public Long process(MutableEntry<Long, Long> entry, Object... arguments) {
            long a = 0;
            long b = 1;
            final int n = 90;
            for (int i = 0; i < n; i++) {
                long next = (a + b) % entry.getKey();
                a = b;
                b = next;
            }
            return a;
        }
    }

    /** Newton's square root in fixed point. */
    public static class Newton implements EntryProcessor<Long, Long, Long> {
        public Long process(MutableEntry<Long, Long> entry, Object... arguments) {
            long n = entry.getKey() & Integer.MAX_VALUE;
            long guess = n / 2 + 1;
            for (int i = 0; i < 25; i++) {
                long next = (guess + n / guess) / 2;
                if (Long.compare(next, guess) >= 0) {
                    break;
                }
                guess = next;
            }
            return guess;
        }
    }

    /** The average of the arguments, or the key if there are none (by a division by zero). */
    public static class Average implements EntryProcessor<Long, Long, Long> {
        public Long process(MutableEntry<Long, Long> entry, Object... arguments) {
            long sum = 0;
            long count = 0;
            for (Object argument : arguments) {
                if (argument instanceof Number) {
                    sum += ((Number) argument).longValue();
                    count++;
                }
            }
            try {
                return sum / count;
            } catch (ArithmeticException e) {
                return entry.getKey();
            }
        }
    }

    /** A sum that saturates instead of overflowing. */
    public static class Saturating implements EntryProcessor<Long, Long, Long> {
        public Long process(MutableEntry<Long, Long> entry, Object... arguments) {
            long sum = entry.exists() ? entry.getValue() : 0;
            for (Object argument : arguments) {
                try {
                    sum = Math.addExact(sum, (Long) argument);
                } catch (ArithmeticException e) {
                    sum = sum < 0 ? Long.MIN_VALUE : Long.MAX_VALUE;
                    break;
                }
            }
            entry.setValue(sum);
            return sum;
        }
    }

    /** A polynomial by Horner's rule, with the coefficients in a constant of the instance. */
    public static class Horner implements EntryProcessor<Long, Long, Long> {
        private final long[] coefficients = {3, -5, 0, 7, 11};
        private final long shift = 100;

        public Long process(MutableEntry<Long, Long> entry, Object... arguments) {
            long x = entry.getKey() % 1000;
            long y = 0;
            for (long c : coefficients) {
                y = y * x + c;
            }
            return y + shift;
        }
    }

    /** Zeller's day of the week over the days of a month, summed. */
    public static class Calendar implements EntryProcessor<Long, Long, Integer> {
        private static final int[] DAYS = {31, 28, 31, 30, 31, 30, 31, 31, 30, 31, 30, 31};

        public Integer process(MutableEntry<Long, Long> entry, Object... arguments) {
            int day = Math.floorMod((int) (long) entry.getKey(), 365);
            int month = 0;
            while (month < 11 && day >= DAYS[month]) {
                day -= DAYS[month++];
            }
            return (month + 1) * 100 + day + 1;
        }
    }
}
