package jentry.compiler.library;

/** Methods of DayOfWeek. A day is its ordinal here: 0 is Monday. Where Java throws a DateTimeException, these divide by zero. */
public final class DayOfWeekMethods {
    private DayOfWeekMethods() { }

    public static int getValue(Integer day) {
        return day.intValue() + 1;
    }

    public static Integer of(int value) {
        int zero = 0;
        return Integer.valueOf(value < 1 || value > 7 ? 1 / zero : value - 1);
    }

    public static Integer plus(Integer day, long days) {
        return Integer.valueOf((int) ((day.intValue() + days % 7 + 7) % 7));
    }

    public static Integer minus(Integer day, long days) {
        return Integer.valueOf((int) ((day.intValue() - days % 7 + 7) % 7));
    }
}
