package jentry.compiler.library;

/** Methods of Math written with operations that the server supports. To throw, they divide by zero. */
public final class MathMethods {
    private MathMethods() { }

    public static long abs(long a) {
        return a < 0 ? -a : a;
    }

    public static int abs(int a) {
        return a < 0 ? -a : a;
    }

    public static long absExact(long a) {
        long zero = 0;
        return a == Long.MIN_VALUE ? 1 / zero : a < 0 ? -a : a;
    }

    public static int absExact(int a) {
        int zero = 0;
        return a == Integer.MIN_VALUE ? 1 / zero : a < 0 ? -a : a;
    }

    public static long floorDiv(long a, long b) {
        long quotient = a / b;
        return (a ^ b) < 0 && quotient * b != a ? quotient - 1 : quotient;
    }

    public static long floorDiv(long a, int b) {
        return Math.floorDiv(a, (long) b);
    }

    public static int floorDiv(int a, int b) {
        int quotient = a / b;
        return (a ^ b) < 0 && quotient * b != a ? quotient - 1 : quotient;
    }

    public static long floorMod(long a, long b) {
        long rest = a % b;
        return rest != 0 && (rest ^ b) < 0 ? rest + b : rest;
    }

    public static int floorMod(long a, int b) {
        return (int) Math.floorMod(a, (long) b);
    }

    public static int floorMod(int a, int b) {
        int rest = a % b;
        return rest != 0 && (rest ^ b) < 0 ? rest + b : rest;
    }

    public static long addExact(long a, long b) {
        long sum = a + b;
        long zero = 0;
        return ((a ^ sum) & (b ^ sum)) < 0 ? 1 / zero : sum;
    }

    public static int addExact(int a, int b) {
        return Math.toIntExact((long) a + b);
    }

    public static long subtractExact(long a, long b) {
        long difference = a - b;
        long zero = 0;
        return ((a ^ b) & (a ^ difference)) < 0 ? 1 / zero : difference;
    }

    public static int subtractExact(int a, int b) {
        return Math.toIntExact((long) a - b);
    }

    public static long multiplyExact(long a, long b) {
        long product = a * b;
        long zero = 0;
        boolean overflows = a == -1 && b == Long.MIN_VALUE || a != 0 && a != -1 && product / a != b;
        return overflows ? 1 / zero : product;
    }

    public static long multiplyExact(long a, int b) {
        return Math.multiplyExact(a, (long) b);
    }

    public static int multiplyExact(int a, int b) {
        return Math.toIntExact((long) a * b);
    }

    public static long incrementExact(long a) {
        return Math.addExact(a, 1L);
    }

    public static int incrementExact(int a) {
        return Math.addExact(a, 1);
    }

    public static long decrementExact(long a) {
        return Math.subtractExact(a, 1L);
    }

    public static int decrementExact(int a) {
        return Math.subtractExact(a, 1);
    }

    public static long negateExact(long a) {
        return Math.subtractExact(0L, a);
    }

    public static int negateExact(int a) {
        return Math.subtractExact(0, a);
    }

    public static int toIntExact(long a) {
        int zero = 0;
        return (int) a != a ? 1 / zero : (int) a;
    }

    public static long multiplyFull(int a, int b) {
        return (long) a * b;
    }

    public static long multiplyHigh(long a, long b) {
        long low = (a & 0xffffffffL) * (b & 0xffffffffL);
        long first = (a >> 32) * (b & 0xffffffffL) + (low >>> 32);
        long second = (a & 0xffffffffL) * (b >> 32) + (first & 0xffffffffL);
        return (a >> 32) * (b >> 32) + (first >> 32) + (second >> 32);
    }
}
