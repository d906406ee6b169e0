package jentry.compiler.library;

/** Methods of Object written with operations that the server supports. The compiler ensures that the receiver is a box or null. */
public final class ObjectMethods {
    private ObjectMethods() { }

    public static boolean equals(Object a, Object b) {
        if (a instanceof Integer) {
            return ((Integer) a).equals(b);
        }
        return a instanceof Boolean ? ((Boolean) a).equals(b) : ((Long) a).equals(b);
    }
}
