package jentry.compiler.library;

/** Methods of Objects written with operations that the server supports. The compiler ensures that the first operand is a box or null. */
public final class ObjectsMethods {
    private ObjectsMethods() { }

    public static boolean equals(Object a, Object b) {
        if (a instanceof Long) {
            return ((Long) a).equals(b);
        }
        if (a instanceof Integer) {
            return ((Integer) a).equals(b);
        }
        if (a instanceof Boolean) {
            return ((Boolean) a).equals(b);
        }
        return a == null && b == null;
    }

    public static boolean isNull(Object a) {
        return a == null;
    }

    public static boolean nonNull(Object a) {
        return a != null;
    }

    public static Object requireNonNull(Object a) {
        if (a == null) {
            ((Long) a).longValue();
        }
        return a;
    }
}
