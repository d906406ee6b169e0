package jentry.compiler.library;

/** Methods of TimeUnit. A unit is its ordinal here, from nanoseconds to days. */
public final class TimeUnitMethods {
    private TimeUnitMethods() { }

    static long nanos(int unit) {
        long nanos = unit == 6 ? 86_400_000_000_000L : unit == 5 ? 3_600_000_000_000L : 60_000_000_000L;
        return unit > 3 ? nanos : unit == 3 ? 1_000_000_000 : unit == 2 ? 1_000_000 : unit == 1 ? 1_000 : 1;
    }

    /** Converts, towards zero; what doesn't fit becomes the nearest long. */
    static long converted(long count, int from, int to) {
        if (from <= to) {
            return count / (nanos(to) / nanos(from));
        }
        long factor = nanos(from) / nanos(to);
        long most = Long.MAX_VALUE / factor;
        return count > most ? Long.MAX_VALUE : count < -most ? Long.MIN_VALUE : count * factor;
    }

    public static long convert(Integer unit, long count, Integer source) {
        return converted(count, source.intValue(), unit.intValue());
    }

    public static long toNanos(Integer unit, long count) {
        return converted(count, unit.intValue(), 0);
    }

    public static long toMicros(Integer unit, long count) {
        return converted(count, unit.intValue(), 1);
    }

    public static long toMillis(Integer unit, long count) {
        return converted(count, unit.intValue(), 2);
    }

    public static long toSeconds(Integer unit, long count) {
        return converted(count, unit.intValue(), 3);
    }

    public static long toMinutes(Integer unit, long count) {
        return converted(count, unit.intValue(), 4);
    }

    public static long toHours(Integer unit, long count) {
        return converted(count, unit.intValue(), 5);
    }

    public static long toDays(Integer unit, long count) {
        return converted(count, unit.intValue(), 6);
    }
}
