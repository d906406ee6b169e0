package tools;

/** Static methods and constants that processors of other packages use. */
public final class Numbers {
    private static final long[] POWERS = {1, 10, 100, 1_000, 10_000};
    public static final long DAY = java.util.concurrent.TimeUnit.DAYS.toMillis(1);
    static final long[] SEEN = new long[4];

    private Numbers() { }

    public static long clamp(long value, long low, long high) {
        return value < low ? low : value > high ? high : value;
    }

    public static long power(int exponent) {
        return POWERS[Math.floorMod(exponent, POWERS.length)];
    }

    public static long digits(long value) {
        long count = 1;
        for (int i = 1; i < POWERS.length; i++) {
            count += value >= power(i) ? 1 : 0;
        }
        return count;
    }

    public static long seen(int index) {
        return SEEN[index & 3];
    }

    public static void see(int index) {
        SEEN[index & 3]++;
    }
}
