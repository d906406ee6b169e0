package jentry.compiler.library;

/** Methods of Boolean written with operations that the server supports. The receiver is the first parameter. */
public final class BooleanMethods {
    private BooleanMethods() { }

    public static boolean equals(Boolean a, Object b) {
        boolean x = a.booleanValue();
        return b instanceof Boolean && ((Boolean) b).booleanValue() == x;
    }

    public static int compareTo(Boolean a, Boolean b) {
        return Boolean.compare(a.booleanValue(), b.booleanValue());
    }

    public static int hashCode(Boolean a) {
        return Boolean.hashCode(a.booleanValue());
    }

    public static int hashCode(boolean a) {
        return a ? 1231 : 1237;
    }

    public static int compare(boolean a, boolean b) {
        return a == b ? 0 : a ? 1 : -1;
    }

    public static boolean logicalAnd(boolean a, boolean b) {
        return a & b;
    }

    public static boolean logicalOr(boolean a, boolean b) {
        return a | b;
    }

    public static boolean logicalXor(boolean a, boolean b) {
        return a ^ b;
    }
}
