package jentry.compiler.library;

/** How many passes a loop has that adds the same to a number in each of them, until the number has passed a limit. */
public final class StepsMethods {
    /** The text of the exception of a loop that doesn't end before its number leaves the range. */
    public static final String ENDLESS = "a loop goes on past the range of its number";

    private StepsMethods() { }

    /**
     * Returns the passes of {@code while (x >= limit) x -= step}, where x is at least the limit, modulo 2^64.
     *
     * @param lowest the lowest number of the type of x
     * @throws ArithmeticException if the step isn't positive, or x becomes less than the lowest number before it is less than the limit
     */
    public static long down(long x, long limit, long step, long lowest) {
        return passes(x - limit, step, limit - lowest);
    }

    /**
     * Returns the passes of {@code while (x <= limit) x += step}, where x is at most the limit, modulo 2^64.
     *
     * @param highest the highest number of the type of x
     * @throws ArithmeticException if the step isn't positive, or x becomes more than the highest number before it is more than the limit
     */
    public static long up(long x, long limit, long step, long highest) {
        return passes(limit - x, step, highest - limit);
    }

    /** Returns the passes for an unsigned distance and an unsigned room beyond the limit. */
    private static long passes(long distance, long step, long room) {
        if (step <= 0) {
            throw new ArithmeticException(ENDLESS);
        }
        long whole = Long.divideUnsigned(distance, step);
        long beyond = step - (distance - whole * step);
        if (Long.compareUnsigned(beyond, room) > 0) {
            throw new ArithmeticException(ENDLESS);
        }
        return whole + 1;
    }
}
