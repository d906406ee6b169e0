package jentry.compiler.library;

/** Methods of Long written with operations that the server supports. The receiver is the first parameter. */
public final class LongMethods {
    private LongMethods() { }

    public static boolean equals(Long a, Object b) {
        long x = a.longValue();
        return b instanceof Long && ((Long) b).longValue() == x;
    }

    public static int compareTo(Long a, Long b) {
        return Long.compare(a.longValue(), b.longValue());
    }

    public static int hashCode(Long a) {
        return Long.hashCode(a.longValue());
    }

    public static int hashCode(long a) {
        return (int) (a ^ a >>> 32);
    }

    public static int compare(long a, long b) {
        return a < b ? -1 : a == b ? 0 : 1;
    }

    public static int compareUnsigned(long a, long b) {
        return Long.compare(a + Long.MIN_VALUE, b + Long.MIN_VALUE);
    }

    public static long divideUnsigned(long a, long b) {
        if (b < 0) {
            return Long.compareUnsigned(a, b) < 0 ? 0 : 1;
        }
        long half = (a >>> 1) / b << 1;
        return half + (Long.compareUnsigned(a - half * b, b) < 0 ? 0 : 1);
    }

    public static long remainderUnsigned(long a, long b) {
        return a - Long.divideUnsigned(a, b) * b;
    }

    public static long sum(long a, long b) {
        return a + b;
    }

    public static long max(long a, long b) {
        return Math.max(a, b);
    }

    public static long min(long a, long b) {
        return Math.min(a, b);
    }

    public static int signum(long a) {
        return (int) (a >> 63 | -a >>> 63);
    }

    public static int bitCount(long a) {
        long pairs = a - (a >>> 1 & 0x5555555555555555L);
        long fours = (pairs & 0x3333333333333333L) + (pairs >>> 2 & 0x3333333333333333L);
        long bytes = fours + (fours >>> 4) & 0x0f0f0f0f0f0f0f0fL;
        return (int) (bytes * 0x0101010101010101L >>> 56);
    }

    public static long highestOneBit(long a) {
        long spread = a | a >>> 1;
        spread |= spread >>> 2;
        spread |= spread >>> 4;
        spread |= spread >>> 8;
        spread |= spread >>> 16;
        spread |= spread >>> 32;
        return spread ^ spread >>> 1;
    }

    public static long lowestOneBit(long a) {
        return a & -a;
    }

    public static int numberOfLeadingZeros(long a) {
        long spread = a | a >>> 1;
        spread |= spread >>> 2;
        spread |= spread >>> 4;
        spread |= spread >>> 8;
        spread |= spread >>> 16;
        spread |= spread >>> 32;
        return Long.bitCount(~spread);
    }

    public static int numberOfTrailingZeros(long a) {
        return Long.bitCount((a & -a) - 1);
    }

    public static long rotateLeft(long a, int by) {
        return a << by | a >>> -by;
    }

    public static long rotateRight(long a, int by) {
        return a >>> by | a << -by;
    }

    public static long reverse(long a) {
        long bits = (a & 0x5555555555555555L) << 1 | a >>> 1 & 0x5555555555555555L;
        bits = (bits & 0x3333333333333333L) << 2 | bits >>> 2 & 0x3333333333333333L;
        bits = (bits & 0x0f0f0f0f0f0f0f0fL) << 4 | bits >>> 4 & 0x0f0f0f0f0f0f0f0fL;
        return Long.reverseBytes(bits);
    }

    public static long reverseBytes(long a) {
        long bytes = (a & 0x00ff00ff00ff00ffL) << 8 | a >>> 8 & 0x00ff00ff00ff00ffL;
        return bytes << 48 | (bytes & 0xffff0000L) << 16 | bytes >>> 16 & 0xffff0000L | bytes >>> 48;
    }
}
