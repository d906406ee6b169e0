package jentry.compiler.library;

/** Methods of enums, whose constants are their ordinals here. */
public final class EnumMethods {
    private EnumMethods() { }

    public static boolean same(Integer a, Integer b) {
        return a == null || b == null ? a == null && b == null : a.intValue() == b.intValue();
    }

    public static boolean equals(Integer a, Integer b) {
        int ordinal = a.intValue();
        return b != null && ordinal == b.intValue();
    }

    public static int compareTo(Integer a, Integer b) {
        return a.intValue() - b.intValue();
    }
}
