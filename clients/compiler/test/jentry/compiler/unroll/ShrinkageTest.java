package jentry.compiler.unroll;

import static org.junit.jupiter.api.Assertions.assertEquals;
import static org.junit.jupiter.api.Assertions.assertTrue;

import java.util.Random;
import org.junit.jupiter.api.Test;

/** Tries the lemmas of Shrinkage: no value of a range needs more passes than its bound, and some value needs as many. */
class ShrinkageTest {
    private static final int TRIES = 30_000;

    private final Random random = new Random(17);

    private long number(boolean isLong) {
        long number = switch (random.nextInt(4)) {
            case 0 -> random.nextLong() >> random.nextInt(64);
            case 1 -> 1L << random.nextInt(64);
            case 2 -> random.nextInt(5) - 2;
            default -> random.nextBoolean() ? Long.MAX_VALUE - random.nextInt(3) : Long.MIN_VALUE + random.nextInt(3);
        };
        return isLong ? number : (int) (random.nextBoolean() ? number : number >> 32);
    }

    private AbstractValue range(boolean isLong) {
        long one = number(isLong);
        long other = number(isLong);
        return AbstractValue.range(isLong ? 2 : 1, Math.min(one, other), Math.max(one, other));
    }

    private long among(AbstractValue range) {
        long width = range.high() - range.low();
        return switch (random.nextInt(3)) {
            case 0 -> range.low();
            case 1 -> range.high();
            default -> range.low() + (width > 0 ? Math.floorMod(random.nextLong(), width) : 0);
        };
    }

    private static void assertWithin(long passes, int bound, String what) {
        assertTrue(passes <= bound, () -> what + ": " + passes + " passes, the bound is " + bound);
    }

    private static int bitsRemoved(long x) {
        int passes = 0;
        for (long rest = x; rest != 0; rest &= rest - 1) {
            passes++;
        }
        return passes;
    }

    @Test
    void bitsRemoved() {
        for (int i = 0; i < TRIES; i++) {
            AbstractValue range = range(i % 2 == 0);
            long x = among(range);
            assertWithin(bitsRemoved(range.size() == 2 ? x : x & 0xFFFFFFFFL), Shrinkage.bitsRemoved(range), "bits of " + x + " in " + range);
        }
        assertEquals(bitsRemoved(-1), Shrinkage.bitsRemoved(AbstractValue.unknown(2)));
        assertEquals(bitsRemoved(255), Shrinkage.bitsRemoved(AbstractValue.range(1, 0, 255)));
    }

    private static long shifted(long x, int k, boolean isLong, boolean isLeft, long mask) {
        long passes = 0;
        long rest = isLong ? x : x & 0xFFFFFFFFL;
        while (rest != 0) {
            rest = (isLeft ? rest << k : rest >>> k) & mask & (isLong ? -1L : 0xFFFFFFFFL);
            passes++;
        }
        return passes;
    }

    @Test
    void shifted() {
        for (int i = 0; i < TRIES; i++) {
            boolean isLong = i % 2 == 0;
            AbstractValue range = range(isLong);
            int k = 1 + random.nextInt(isLong ? 63 : 31);
            long x = among(range);
            long mask = random.nextBoolean() ? -1 : random.nextLong();
            String what = x + " shifted by " + k + " in " + range;
            assertWithin(shifted(x, k, isLong, false, mask), Shrinkage.shiftedRight(range, k), what);
            assertWithin(shifted(x, k, isLong, true, mask), Shrinkage.shiftedLeft(range, k), what);
        }
        for (int k = 1; k < 64; k++) {
            assertEquals(shifted(-1, k, true, false, -1), Shrinkage.shiftedRight(AbstractValue.unknown(2), k), "all bits by " + k);
            assertEquals(shifted(1, k, true, true, -1), Shrinkage.shiftedLeft(AbstractValue.unknown(2), k), "the lowest bit by " + k);
        }
    }

    @Test
    void shiftedSigned() {
        for (int i = 0; i < TRIES; i++) {
            AbstractValue range = range(i % 2 == 0);
            int k = 1 + random.nextInt(31);
            long passes = 0;
            for (long rest = among(range); rest > 0; rest >>= k) {
                passes++;
            }
            assertWithin(passes, Shrinkage.shiftedSigned(range, k, true), "by " + k + " in " + range);
            assertTrue(range.low() >= 0 || Shrinkage.shiftedSigned(range, k, false) == Shrinkage.UNBOUNDED, range + " may be negative");
        }
        assertEquals(63, Shrinkage.shiftedSigned(AbstractValue.unknown(2), 1, true));
        assertEquals(31, Shrinkage.shiftedSigned(AbstractValue.unknown(1), 1, true));
        assertEquals(6, Shrinkage.shiftedSigned(AbstractValue.range(1, 0, 63), 1, false));
    }

    @Test
    void runsShortened() {
        for (int i = 0; i < TRIES; i++) {
            int k = 1 + random.nextInt(63);
            long left = number(true) | number(true);
            long right = left;
            int passes = 0;
            for (; left != 0 || right != 0; passes++) {
                left &= left << k;
                right &= right >>> k;
            }
            assertWithin(passes, Shrinkage.runsShortened(AbstractValue.unknown(2), k), "runs by " + k);
        }
        assertEquals(64, Shrinkage.runsShortened(AbstractValue.unknown(2), 1));
    }

    private static long divided(long x, long k) {
        long passes = 0;
        for (long rest = x; rest != 0; rest /= k) {
            passes++;
        }
        return passes;
    }

    @Test
    void divided() {
        for (int i = 0; i < TRIES; i++) {
            AbstractValue range = range(i % 2 == 0);
            long k = random.nextBoolean() ? 2 + random.nextInt(100) : -2 - random.nextInt(100);
            long x = among(range);
            assertWithin(divided(x, k), Shrinkage.divided(range, k), x + " by " + k + " in " + range);
        }
        for (int k = 2; k < 100; k++) {
            assertEquals(divided(Long.MIN_VALUE, k), Shrinkage.divided(AbstractValue.unknown(2), k), "the lowest number by " + k);
        }
        assertEquals(Shrinkage.UNBOUNDED, Shrinkage.divided(AbstractValue.unknown(2), -1));
    }

    @Test
    void steppedDown() {
        for (int i = 0; i < TRIES; i++) {
            AbstractValue range = AbstractValue.range(2, -random.nextInt(3_000), random.nextInt(3_000));
            long limit = random.nextInt(4_000) - 2_000;
            long least = 1 + random.nextInt(50);
            long most = least + random.nextInt(20);
            long passes = 0;
            for (long rest = among(range); rest > limit; rest -= least + random.nextInt((int) (most - least) + 1)) {
                passes++;
            }
            assertWithin(passes, Shrinkage.steppedDown(range, limit, least, most), range + " by " + least + " to " + limit);
        }
        assertEquals(10, Shrinkage.steppedDown(AbstractValue.range(2, -5, 100), 0, 10, 10));
        assertEquals(11, Shrinkage.steppedDown(AbstractValue.range(2, -5, 101), 0, 10, 10));
        assertEquals(Shrinkage.UNBOUNDED, Shrinkage.steppedDown(AbstractValue.range(2, 0, 5), Long.MIN_VALUE, 1, 1));
        assertEquals(Shrinkage.UNBOUNDED, Shrinkage.steppedDown(AbstractValue.range(2, 0, 5), 0, 0, 3));
        assertEquals(Shrinkage.UNBOUNDED, Shrinkage.steppedDown(AbstractValue.unknown(2), -5, 1, 1));
    }

    private static long euclid(long first, long second) {
        long a = first;
        long b = second;
        long passes = 0;
        for (; b != 0; passes++) {
            long rest = a % b;
            a = b;
            b = rest;
        }
        return passes;
    }

    @Test
    void euclid() {
        for (int i = 0; i < TRIES; i++) {
            long a = number(true);
            long b = number(true);
            assertWithin(euclid(a, b), Shrinkage.euclid(true), a + " and " + b);
            assertWithin(euclid((int) a, (int) b), Shrinkage.euclid(false), (int) a + " and " + (int) b);
        }
        long a = 1;
        long b = 1;
        while (a + b > 0) {
            long next = a + b;
            a = b;
            b = next;
            assertWithin(euclid(-a, b), Shrinkage.euclid(true), a + " and " + b);
            if (b == 1_836_311_903) {
                assertEquals(euclid(a, b), Shrinkage.euclid(false), "the last two Fibonacci numbers of int");
            }
        }
        assertEquals(euclid(a, b), Shrinkage.euclid(true), "the last two Fibonacci numbers of long");
    }

    /** Runs a search that goes where a random number says. Its kind is 0 for low < high, 1 for low <= high, 2 for high - low > 1, 3 for a middle rounded up. */
    private int halved(long from, long to, int kind) {
        long low = from;
        long high = to;
        int passes = 0;
        while (kind == 1 ? low <= high : kind == 2 ? high - low > 1 : low < high) {
            passes++;
            long middle = kind == 3 ? low + (high - low + 1) / 2 : low + (high - low) / 2;
            if (random.nextBoolean()) {
                low = kind == 2 || kind == 3 ? middle : middle + 1;
            } else {
                high = kind == 1 || kind == 3 ? middle - 1 : middle;
            }
        }
        return passes;
    }

    @Test
    void halved() {
        for (int i = 0; i < TRIES; i++) {
            long low = number(true) >> 2;
            long high = number(true) >> 2;
            int kind = i % 4;
            AbstractValue below = AbstractValue.range(2, low - random.nextInt(5), low);
            AbstractValue above = AbstractValue.range(2, high, high + random.nextInt(5));
            assertWithin(halved(low, high, kind), Shrinkage.halved(below, above, kind == 1), "from " + low + " to " + high + " by " + kind);
        }
        int[] most = new int[4];
        for (int i = 0; i < 40_000; i++) {
            most[i % 4] = Math.max(most[i % 4], halved(0, 255, i % 4));
        }
        assertEquals(8, Shrinkage.halved(AbstractValue.constant(0), AbstractValue.constant(255), false));
        assertEquals(9, Shrinkage.halved(AbstractValue.constant(0), AbstractValue.constant(255), true));
        assertEquals("8 9 8 8", most[0] + " " + most[1] + " " + most[2] + " " + most[3]);
        assertEquals(65, Shrinkage.halved(AbstractValue.unknown(2), AbstractValue.unknown(2), true));
    }

    private static int newton(long n, long first, long second) {
        long x = first;
        long y = second;
        int passes = 0;
        for (; y < x && y != 0; passes++) {
            x = y;
            y = (x + n / x) / 2;
        }
        return passes;
    }

    private static int newton(int n, int first, int second) {
        int x = first;
        int y = second;
        int passes = 0;
        for (; y < x && y != 0; passes++) {
            x = y;
            y = x + n / x >> 1;
        }
        return passes;
    }

    @Test
    void newton() {
        int most = 0;
        for (int i = 0; i < 10 * TRIES; i++) {
            long n = number(true);
            long x = i % 2 == 0 ? Long.MAX_VALUE : number(true);
            long y = i % 3 == 0 ? n / 2 + 1 : number(true);
            assertWithin(newton(n, x, y), Shrinkage.newton(true), "the root of " + n + " from " + x + " and " + y);
            assertWithin(newton((int) n, (int) x, (int) y), Shrinkage.newton(false), "the root of " + (int) n + " from " + (int) x + " and " + (int) y);
            most = Math.max(most, newton(n >>> 1, Long.MAX_VALUE, Long.MAX_VALUE - 1));
        }
        assertTrue(newton(1, Long.MAX_VALUE, Long.MAX_VALUE - 1) >= Shrinkage.newton(true) - 3, "the bound is nearly reached");
        assertTrue(most >= Shrinkage.newton(true) - 3, "random values come near it, too: " + most);
    }

    @Test
    void cycled() {
        for (int i = 0; i < TRIES; i++) {
            int[] next = random.ints(1 + random.nextInt(20), 0, 1_000).toArray();
            int values = next.length;
            int x = random.nextInt(1_000);
            boolean[] seen = new boolean[1_000];
            int passes = 0;
            do {
                seen[x] = true;
                x = next[x % values];
                passes++;
            } while (!seen[x]);
            assertWithin(passes, Shrinkage.cycled(values), values + " values");
        }
        assertEquals(65, Shrinkage.cycled(64));
    }
}
