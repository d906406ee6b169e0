package jentry.compiler.unroll;

/**
 * How many passes a loop has at most that shrinks a value.
 *
 * <p>Each bound is a lemma, which stands in its comment and which ShrinkageTest tries with random values. The first test of a loop comes before its first
 * pass, so a bound of n means that the test fails once the value has shrunk n times. {@link #UNBOUNDED} is the answer where nothing is known.
 */
final class Shrinkage {
    /** More passes than any class has. */
    static final int UNBOUNDED = Integer.MAX_VALUE;

    private static final long MOST = 1 << 20;

    private Shrinkage() { }

    /** Returns the number of bits of a value up to the highest that may be 1: all bits of its type if it may be negative. */
    static int width(AbstractValue value) {
        return value.low() < 0 ? value.size() * 32 : Long.SIZE - Long.numberOfLeadingZeros(value.high());
    }

    /**
     * {@code x &= x - 1} until x is 0.
     *
     * <p>Lemma: x & (x - 1) is x without its lowest 1. A value of n bits has n ones at most, so it is 0 after n passes.
     */
    static int bitsRemoved(AbstractValue x) {
        return width(x);
    }

    /**
     * {@code x >>>= k} until x is 0, and x shifted and masked by anything.
     *
     * <p>Lemma: after n passes the value has zeros above the lowest (width - k * n) bits, since a pass moves the highest possible 1 by k bits and a mask
     * adds none. So it is 0 after the width divided by k, rounded up.
     */
    static int shiftedRight(AbstractValue x, int k) {
        return roundedUp(width(x), k);
    }

    /**
     * {@code x <<= k} until x is 0, and x shifted and masked by anything.
     *
     * <p>Lemma: after n passes the lowest k * n bits are zeros. So it is 0 after the bits of the type divided by k, rounded up.
     */
    static int shiftedLeft(AbstractValue x, int k) {
        return roundedUp(x.size() * 32, k);
    }

    /**
     * {@code x &= x << k} or {@code x &= x >>> k} until x is 0.
     *
     * <p>Lemma: a bit is 1 after n passes only where it was 1 and so were the n bits at distances of k below it (above it for >>>). There are no such
     * bits in a type of b bits once k * n is at least b.
     */
    static int runsShortened(AbstractValue x, int k) {
        return roundedUp(x.size() * 32, k);
    }

    /**
     * {@code x >>= k} until x is 0, for an x that isn't negative: {@code x > 0} is tested, or the range of x says so.
     *
     * <p>Lemma: of such an x the signed shift is the unsigned one, and the highest bit of the type is 0. A negative x ends at -1, never at 0.
     */
    static int shiftedSigned(AbstractValue x, int k, boolean isTestedPositive) {
        return x.low() >= 0 ? roundedUp(width(x), k) : isTestedPositive ? roundedUp(x.size() * 32 - 1, k) : UNBOUNDED;
    }

    /**
     * {@code x /= k} until x is 0, where k isn't -1, 0 or 1.
     *
     * <p>Lemma: the quotient rounds towards 0, so |x / k| is |x| / |k| rounded down, and after n passes |x| / |k|^n rounded down. That is 0 once |k|^n is
     * more than |x|. The largest |x| is that of the lowest number, 2^63 for long.
     */
    static int divided(AbstractValue x, long k) {
        long divisor = Math.abs(k);
        if (divisor < 2) {
            return UNBOUNDED;
        }
        // as negative numbers, of which the lowest has an absolute value too
        long left = Math.min(x.low(), -Math.max(x.high(), -Long.MAX_VALUE));
        int passes = 0;
        while (left < 0) {
            left /= divisor;
            passes++;
        }
        return passes;
    }

    /**
     * {@code x -= step} while {@code x > limit}, where step is 1 or more.
     *
     * <p>Lemma: after n passes x is at most high - n * step. So x > limit fails after (high - limit) / step passes, rounded up, and none of them wraps round
     * if limit - step + 1, the lowest value that is reached, is in the type.
     *
     * @param step the lowest step
     * @param most the highest step
     */
    static int steppedDown(AbstractValue x, long limit, long step, long most) {
        long lowest = x.size() == 2 ? Long.MIN_VALUE : Integer.MIN_VALUE;
        if (step < 1 || most > MOST << 20 || limit < lowest + most) {
            return UNBOUNDED;
        } else if (x.high() <= limit) {
            return 0;
        }
        boolean isFar = limit < 0 && x.high() > Long.MAX_VALUE + limit || (x.high() - limit) / step > MOST;
        return isFar ? UNBOUNDED : (int) ((x.high() - limit + step - 1) / step);
    }

    /**
     * {@code r = a % b; a = b; b = r} until b is 0.
     *
     * <p>Lemma (Lamé): if |a| > |b| and the loop has n passes, |a| is at least the Fibonacci number F(n + 2), where F(1) and F(2) are 1: the last pass has a
     * divisor of 1 = F(2) at least and a dividend of 2 = F(3) at least, and each pass before it a dividend that is the sum of the next two at least. If
     * |a| <= |b|, one pass more exchanges the two, and |b| is that large. |x % y| is the remainder of |x| and |y|, so signs don't matter. The greatest F
     * within 2^63 is F(92), within 2^31 it is F(46).
     */
    static int euclid(boolean isLong) {
        return isLong ? 92 - 2 + 1 : 46 - 2 + 1;
    }

    /**
     * {@code mid = (low + high) / 2; low = mid + 1 or high = mid} while {@code low < high}, and the like.
     *
     * <p>Lemma: let d be high - low. With the middle low + d / 2, rounded down, the next d is at most d / 2 rounded down: it is that for high = mid, and
     * d / 2 rounded up, less 1, for low = mid + 1. The same holds for the middle that is rounded up, with low = mid or high = mid - 1. So d is 0 after as
     * many passes as it has bits. With {@code low <= high}, low = mid + 1 and high = mid - 1 it holds of d + 1. With low = mid, high = mid and
     * {@code high - low > 1} the next d is at most d / 2 rounded up, so it is 1 after as many passes.
     *
     * @param isInclusive whether the loop goes on where the two are equal
     */
    static int halved(AbstractValue low, AbstractValue high, boolean isInclusive) {
        int all = low.size() * 32;
        if (high.high() < low.low()) {
            return 0;
        }
        // as an unsigned number, which a distance of two longs fits into
        long distance = high.high() - low.low() + (isInclusive ? 1 : 0);
        return distance == 0 && isInclusive ? all + 1 : Long.SIZE - Long.numberOfLeadingZeros(distance);
    }

    /**
     * {@code x = y; y = (x + n / x) / 2} while {@code y < x}, and the like.
     *
     * <p>Lemma: let y and n be positive and s the root of n. While y > s, n / y is less than s, so the next y is less than (y + s) / 2, and y - s is halved:
     * after as many passes as a positive number has bits it is less than 1. No y is less than s rounded down, since (y + n / y) / 2 isn't less than s, so two
     * passes more can make it less. If y < s, the next one isn't less. A y that isn't positive, or an n, ends sooner.
     */
    static int newton(boolean isLong) {
        return (isLong ? 63 : 31) + 2;
    }

    /**
     * {@code do { x = f(x); } while (g(x))} where f has so many values.
     *
     * <p>Lemma: of one more value than f has, two are equal, and so are those behind each of them. So g, which is true of all of these, is always true, and a
     * run that goes on then never ends. The value before the first pass may be one that f doesn't have.
     */
    static int cycled(int values) {
        return values + 1;
    }

    private static int roundedUp(int bits, int k) {
        return (bits + k - 1) / k;
    }
}
