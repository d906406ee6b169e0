package jentry.compiler;

import static org.junit.jupiter.api.Assertions.assertEquals;
import static org.junit.jupiter.api.Assertions.assertThrows;
import static org.junit.jupiter.api.Assertions.assertTrue;

import java.math.BigInteger;
import java.util.Random;
import jentry.compiler.library.StepsMethods;
import org.junit.jupiter.api.Test;

/** Compares the passes of loops that add the same in each pass with integers that don't overflow, and with the loops themselves. */
class StepsMethodsTest {
    private static final int TRIES = 50_000;

    private final Random random = new Random(23);

    private long number() {
        return switch (random.nextInt(4)) {
            case 0 -> random.nextLong();
            case 1 -> random.nextBoolean() ? Long.MAX_VALUE - random.nextInt(4) : Long.MIN_VALUE + random.nextInt(4);
            case 2 -> 1L << random.nextInt(64);
            default -> random.nextInt(200) - 100;
        };
    }

    private static BigInteger big(long number) {
        return BigInteger.valueOf(number);
    }

    /** Returns the passes of a loop that moves x up until it is more than the limit, or null if it leaves the range up to the highest number. */
    private static BigInteger passes(BigInteger x, BigInteger limit, BigInteger step, BigInteger highest) {
        if (step.signum() <= 0) {
            return null;
        }
        BigInteger passes = limit.subtract(x).divide(step).add(BigInteger.ONE);
        return x.add(passes.multiply(step)).compareTo(highest) <= 0 ? passes : null;
    }

    @Test
    void passesOfAnyNumbers() {
        int ended = 0;
        for (int i = 0; i < TRIES; i++) {
            boolean isLong = i % 2 == 0;
            long one = isLong ? number() : (int) number();
            long other = isLong ? number() : (int) number();
            long low = Math.min(one, other);
            long high = Math.max(one, other);
            long step = isLong ? number() : (int) number();
            long highest = isLong ? Long.MAX_VALUE : Integer.MAX_VALUE;
            long lowest = -highest - 1;
            BigInteger up = passes(big(low), big(high), big(step), big(highest));
            BigInteger down = passes(big(high).negate(), big(low).negate(), big(step), big(lowest).negate());
            String what = low + " and " + high + " by " + step;
            if (up == null) {
                assertThrows(ArithmeticException.class, () -> StepsMethods.up(low, high, step, highest), what);
            } else {
                assertEquals(up.longValue(), StepsMethods.up(low, high, step, highest), what);
                ended++;
            }
            if (down == null) {
                assertThrows(ArithmeticException.class, () -> StepsMethods.down(high, low, step, lowest), what);
            } else {
                assertEquals(down.longValue(), StepsMethods.down(high, low, step, lowest), what);
                ended++;
            }
        }
        assertTrue(ended > TRIES / 4 && ended < 2 * TRIES - TRIES / 4, ended + " of the loops end");
    }

    @Test
    void passesOfShortLoops() {
        for (int i = 0; i < TRIES / 20; i++) {
            long limit = number();
            long start = limit + random.nextInt(300);
            long step = 1 + random.nextInt(20);
            long passes = 0;
            boolean isInRange = start >= limit;
            for (long x = start; isInRange && x >= limit; passes++) {
                isInRange = x - step < x;
                x -= step;
            }
            if (isInRange) {
                assertEquals(passes, StepsMethods.down(start, limit, step, Long.MIN_VALUE), start + " to " + limit + " by " + step);
            }
        }
    }
}
