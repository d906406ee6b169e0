package jentry.compiler.library;

/**
 * Methods of LocalDate. A date is its epoch day here. Where Java throws a DateTimeException, these divide by zero.
 *
 * <p>Years begin in March while they are computed, so that the leap day is the last one.
 */
public final class LocalDateMethods {
    private static final long MOST_YEARS = 999_999_999;
    private static final long FIRST_OF_MARCH = 719_468;
    private static final long DAYS_OF_400_YEARS = 146_097;

    private LocalDateMethods() { }

    /** Divides by zero if a condition doesn't hold. */
    static long check(boolean holds, long value) {
        long zero = 0;
        return holds ? value : 1 / zero;
    }

    /** Returns year, month and day in one number: the day in 5 bits, the month in 4 above them, and the year above these. */
    static long fields(long epochDay) {
        long shifted = epochDay + FIRST_OF_MARCH;
        long cycle = Math.floorDiv(shifted, DAYS_OF_400_YEARS);
        long day = shifted - cycle * DAYS_OF_400_YEARS;
        long century = Math.min(day / 36_524, 3);
        day -= century * 36_524;
        long fourYears = day / 1_461;
        day -= fourYears * 1_461;
        long year = Math.min(day / 365, 3);
        day -= year * 365;
        long month = (5 * day + 2) / 153;
        day -= (153 * month + 2) / 5;
        year += 400 * cycle + 100 * century + 4 * fourYears + (month >= 10 ? 1 : 0);
        return year << 9 | (month >= 10 ? month - 9 : month + 3) << 5 | day + 1;
    }

    /** Returns the epoch day of a date that there is. */
    static long day(long year, long month, long day) {
        long march = month > 2 ? year : year - 1;
        long months = month > 2 ? month - 3 : month + 9;
        return 365 * march + Math.floorDiv(march, 4L) - Math.floorDiv(march, 100L) + Math.floorDiv(march, 400L) + (153 * months + 2) / 5 + day - 1
            - FIRST_OF_MARCH;
    }

    static boolean isLeap(long year) {
        return (year & 3) == 0 && (year % 100 != 0 || year % 400 == 0);
    }

    static long length(long year, long month) {
        return month == 2 ? isLeap(year) ? 29 : 28 : month == 4 || month == 6 || month == 9 || month == 11 ? 30 : 31;
    }

    /** Returns the date, with the last day of the month where the day is later. */
    static Long resolved(long year, long month, long day) {
        return Long.valueOf(day(check(year >= -MOST_YEARS && year <= MOST_YEARS, year), month, Math.min(day, length(year, month))));
    }

    public static Long ofEpochDay(long epochDay) {
        return Long.valueOf(check(epochDay >= -365_243_219_162L && epochDay <= 365_241_780_471L, epochDay));
    }

    public static Long of(int year, int month, int day) {
        check(year >= -MOST_YEARS && year <= MOST_YEARS && month >= 1 && month <= 12 && day >= 1 && day <= length(year, month), 0);
        return Long.valueOf(day(year, month, day));
    }

    public static Long ofYearDay(int year, int dayOfYear) {
        check(year >= -MOST_YEARS && year <= MOST_YEARS && dayOfYear >= 1 && dayOfYear <= (isLeap(year) ? 366 : 365), 0);
        return Long.valueOf(day(year, 1, 1) + dayOfYear - 1);
    }

    public static long toEpochDay(Long date) {
        return date.longValue();
    }

    public static int getYear(Long date) {
        return (int) (fields(date.longValue()) >> 9);
    }

    public static int getMonthValue(Long date) {
        return (int) (fields(date.longValue()) >> 5) & 15;
    }

    public static Integer getMonth(Long date) {
        return Integer.valueOf(((int) (fields(date.longValue()) >> 5) & 15) - 1);
    }

    public static int getDayOfMonth(Long date) {
        return (int) fields(date.longValue()) & 31;
    }

    public static int getDayOfYear(Long date) {
        return (int) (date.longValue() - day(fields(date.longValue()) >> 9, 1, 1)) + 1;
    }

    public static Integer getDayOfWeek(Long date) {
        return Integer.valueOf((int) Math.floorMod(date.longValue() + 3, 7L));
    }

    public static boolean isLeapYear(Long date) {
        return isLeap(fields(date.longValue()) >> 9);
    }

    public static int lengthOfMonth(Long date) {
        long fields = fields(date.longValue());
        return (int) length(fields >> 9, fields >> 5 & 15);
    }

    public static int lengthOfYear(Long date) {
        return isLeap(fields(date.longValue()) >> 9) ? 366 : 365;
    }

    public static Long plusDays(Long date, long days) {
        long now = date.longValue();
        return ofEpochDay(Math.addExact(now, days));
    }

    public static Long plusWeeks(Long date, long weeks) {
        return plusDays(date, Math.multiplyExact(weeks, 7L));
    }

    public static Long plusMonths(Long date, long months) {
        long fields = fields(date.longValue());
        long all = (fields >> 9) * 12 + (fields >> 5 & 15) - 1 + months;
        return resolved(Math.floorDiv(all, 12L), Math.floorMod(all, 12L) + 1, fields & 31);
    }

    public static Long plusYears(Long date, long years) {
        long fields = fields(date.longValue());
        return resolved((fields >> 9) + years, fields >> 5 & 15, fields & 31);
    }

    public static Long minusDays(Long date, long days) {
        return days == Long.MIN_VALUE ? plusDays(plusDays(date, Long.MAX_VALUE), 1) : plusDays(date, -days);
    }

    public static Long minusWeeks(Long date, long weeks) {
        return plusWeeks(date, check(weeks != Long.MIN_VALUE, -weeks));
    }

    public static Long minusMonths(Long date, long months) {
        return plusMonths(date, check(months != Long.MIN_VALUE, -months));
    }

    public static Long minusYears(Long date, long years) {
        return plusYears(date, check(years != Long.MIN_VALUE, -years));
    }

    public static Long withYear(Long date, int year) {
        long fields = fields(date.longValue());
        return resolved(year, fields >> 5 & 15, fields & 31);
    }

    public static Long withMonth(Long date, int month) {
        long fields = fields(date.longValue());
        return resolved(fields >> 9, check(month >= 1 && month <= 12, month), fields & 31);
    }

    public static Long withDayOfMonth(Long date, int day) {
        long fields = fields(date.longValue());
        return of((int) (fields >> 9), (int) (fields >> 5) & 15, day);
    }

    public static Long withDayOfYear(Long date, int dayOfYear) {
        return ofYearDay((int) (fields(date.longValue()) >> 9), dayOfYear);
    }

    public static boolean isBefore(Long date, Long other) {
        return date.longValue() < other.longValue();
    }

    public static boolean isAfter(Long date, Long other) {
        return date.longValue() > other.longValue();
    }

    public static boolean isEqual(Long date, Long other) {
        return date.longValue() == other.longValue();
    }
}
