package jentry.compiler.library;

/** Methods of Integer written with operations that the server supports. The receiver is the first parameter. */
public final class IntegerMethods {
    private IntegerMethods() { }

    public static boolean equals(Integer a, Object b) {
        int x = a.intValue();
        return b instanceof Integer && ((Integer) b).intValue() == x;
    }

    public static int compareTo(Integer a, Integer b) {
        return Integer.compare(a.intValue(), b.intValue());
    }

    public static int hashCode(Integer a) {
        return a.intValue();
    }

    public static int hashCode(int a) {
        return a;
    }

    public static int compare(int a, int b) {
        return a < b ? -1 : a == b ? 0 : 1;
    }

    public static int compareUnsigned(int a, int b) {
        return Integer.compare(a + Integer.MIN_VALUE, b + Integer.MIN_VALUE);
    }

    public static int divideUnsigned(int a, int b) {
        return (int) ((a & 0xffffffffL) / (b & 0xffffffffL));
    }

    public static int remainderUnsigned(int a, int b) {
        return (int) ((a & 0xffffffffL) % (b & 0xffffffffL));
    }

    public static long toUnsignedLong(int a) {
        return a & 0xffffffffL;
    }

    public static int sum(int a, int b) {
        return a + b;
    }

    public static int max(int a, int b) {
        return Math.max(a, b);
    }

    public static int min(int a, int b) {
        return Math.min(a, b);
    }

    public static int signum(int a) {
        return a >> 31 | -a >>> 31;
    }

    public static int bitCount(int a) {
        return Long.bitCount(a & 0xffffffffL);
    }

    public static int highestOneBit(int a) {
        return (int) Long.highestOneBit(a & 0xffffffffL);
    }

    public static int lowestOneBit(int a) {
        return a & -a;
    }

    public static int numberOfLeadingZeros(int a) {
        return Long.numberOfLeadingZeros(a & 0xffffffffL) - 32;
    }

    public static int numberOfTrailingZeros(int a) {
        return Integer.bitCount((a & -a) - 1);
    }

    public static int rotateLeft(int a, int by) {
        return a << by | a >>> -by;
    }

    public static int rotateRight(int a, int by) {
        return a >>> by | a << -by;
    }

    public static int reverse(int a) {
        return (int) (Long.reverse(a) >>> 32);
    }

    public static int reverseBytes(int a) {
        return a << 24 | (a & 0xff00) << 8 | a >>> 8 & 0xff00 | a >>> 24;
    }
}
