package jentry.compiler.library;

/** Methods of Month. A month is its ordinal here: 0 is January. Where Java throws a DateTimeException, these divide by zero. */
public final class MonthMethods {
    private MonthMethods() { }

    public static int getValue(Integer month) {
        return month.intValue() + 1;
    }

    public static Integer of(int value) {
        int zero = 0;
        return Integer.valueOf(value < 1 || value > 12 ? 1 / zero : value - 1);
    }

    public static Integer plus(Integer month, long months) {
        return Integer.valueOf((int) ((month.intValue() + months % 12 + 12) % 12));
    }

    public static Integer minus(Integer month, long months) {
        return Integer.valueOf((int) ((month.intValue() - months % 12 + 12) % 12));
    }
}
