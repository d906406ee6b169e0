import javax.cache.processor.EntryProcessor;
import javax.cache.processor.MutableEntry;

/** Calendars: days, months, weeks, opening hours. */
public final class Calendars {
    private Calendars() { }

    static boolean isLeap(int year) {
        return year % 4 == 0 && (year % 100 != 0 || year % 400 == 0);
    }

    public static class LeapYear implements EntryProcessor<Long, Long, Integer> {
        @Override
        public Integer process(MutableEntry<Long, Long> entry, Object... arguments) {
            int year = (Integer) arguments[0];
            int days = isLeap(year) ? 366 : 365;
            entry.setValue((long) days);
            return days;
        }
    }

    public static class DayOfYear implements EntryProcessor<Long, Long, Integer> {
        private static final int[] DAYS = {31, 28, 31, 30, 31, 30, 31, 31, 30, 31, 30, 31};

        @Override
        public Integer process(MutableEntry<Long, Long> entry, Object... arguments) {
            int year = (Integer) arguments[0];
            int month = (Integer) arguments[1];
            int day = (Integer) arguments[2];
            int sum = day;
            for (int m = 1; m < month; m++) {
                sum += DAYS[m - 1];
                if (m == 2 && year % 4 == 0 && (year % 100 != 0 || year % 400 == 0)) {
                    sum++;
                }
            }
            return sum;
        }
    }

    public static class Weekday implements EntryProcessor<Long, Long, Integer> {
        @Override
        public Integer process(MutableEntry<Long, Long> entry, Object... arguments) {
            int y = (Integer) arguments[0];
            int m = (Integer) arguments[1];
            int d = (Integer) arguments[2];
            if (m < 3) {
                m += 12;
                y--;
            }
            int k = y % 100;
            int j = y / 100;
            return Math.floorMod(d + 13 * (m + 1) / 5 + k + k / 4 + j / 4 + 5 * j, 7);
        }
    }

    public static class CivilFromDays implements EntryProcessor<Long, Long, Long> {
        @Override
        public Long process(MutableEntry<Long, Long> entry, Object... arguments) {
            long z = (Long) arguments[0] + 719468;
            long era = Math.floorDiv(z, 146097L);
            long doe = z - era * 146097;
            long yoe = (doe - doe / 1460 + doe / 36524 - doe / 146096) / 365;
            long doy = doe - (365 * yoe + yoe / 4 - yoe / 100);
            long mp = (5 * doy + 2) / 153;
            long day = doy - (153 * mp + 2) / 5 + 1;
            long month = mp < 10 ? mp + 3 : mp - 9;
            long year = yoe + era * 400 + (month <= 2 ? 1 : 0);
            long packed = year * 10_000 + month * 100 + day;
            entry.setValue(packed);
            return packed;
        }
    }

    public static class YearOfDay implements EntryProcessor<Long, Long, Integer> {
        @Override
        public Integer process(MutableEntry<Long, Long> entry, Object... arguments) {
            long days = (Long) arguments[0];
            int year = 1970;
            while (true) {
                int length = isLeap(year) ? 366 : 365;
                if (days < length) {
                    return year;
                }
                days -= length;
                year++;
            }
        }
    }

    public static class MonthBucket implements EntryProcessor<Long, Long, Long> {
        @Override
        public Long process(MutableEntry<Long, Long> entry, Object... arguments) {
            int month = (Integer) arguments[0];
            long bits = entry.exists() ? entry.getValue() : 0L;
            bits |= 1L << month - 1;
            entry.setValue(bits);
            int active = 0;
            for (int i = 0; i < 12; i++) {
                if ((bits >> i & 1) == 1) {
                    active++;
                }
            }
            return (long) active;
        }
    }

    public static class DaysInMonth implements EntryProcessor<Long, Long, Integer> {
        @Override
        public Integer process(MutableEntry<Long, Long> entry, Object... arguments) {
            int year = (Integer) arguments[0];
            switch ((Integer) arguments[1]) {
                case 2:
                    return isLeap(year) ? 29 : 28;
                case 4:
                case 6:
                case 9:
                case 11:
                    return 30;
                default:
                    return 31;
            }
        }
    }

    public static class NextBusinessDay implements EntryProcessor<Long, Long, Long> {
        @Override
        public Long process(MutableEntry<Long, Long> entry, Object... arguments) {
            long day = (Long) arguments[0];
            int left = (Integer) arguments[1];
            while (left > 0) {
                day++;
                long weekday = Math.floorMod(day + 3, 7L);
                if (weekday < 5) {
                    left--;
                }
            }
            entry.setValue(day);
            return day;
        }
    }

    public static class OpeningHours implements EntryProcessor<Long, Long, Boolean> {
        private static final int[][] HOURS = {{9, 18}, {9, 18}, {9, 18}, {9, 20}, {9, 20}, {10, 16}, {0, 0}};

        @Override
        public Boolean process(MutableEntry<Long, Long> entry, Object... arguments) {
            int weekday = (Integer) arguments[0];
            int hour = (Integer) arguments[1];
            int[] today = HOURS[weekday];
            return hour >= today[0] && hour < today[1];
        }
    }

    public static class IsoWeek implements EntryProcessor<Long, Long, Integer> {
        @Override
        public Integer process(MutableEntry<Long, Long> entry, Object... arguments) {
            int dayOfYear = (Integer) arguments[0];
            int weekday = (Integer) arguments[1];
            int week = (dayOfYear - weekday + 10) / 7;
            return week < 1 ? 52 : Math.min(week, 53);
        }
    }

    public static class EasterSunday implements EntryProcessor<Long, Long, Integer> {
        @Override
        public Integer process(MutableEntry<Long, Long> entry, Object... arguments) {
            int year = ((Number) arguments[0]).intValue();
            int a = year % 19;
            int b = year / 100;
            int c = year % 100;
            int d = b / 4;
            int e = b % 4;
            int f = (b + 8) / 25;
            int g = (b - f + 1) / 3;
            int h = (19 * a + b - d - g + 15) % 30;
            int i = c / 4;
            int k = c % 4;
            int l = (32 + 2 * e + 2 * i - h - k) % 7;
            int m = (a + 11 * h + 22 * l) / 451;
            int month = (h + l - 7 * m + 114) / 31;
            int day = (h + l - 7 * m + 114) % 31 + 1;
            entry.setValue(month * 100L + day);
            return month * 100 + day;
        }
    }

    public static class Age implements EntryProcessor<Long, Long, Integer> {
        @Override
        public Integer process(MutableEntry<Long, Long> entry, Object... arguments) {
            if (!entry.exists()) {
                return -1;
            }
            long birth = entry.getValue();
            long today = (Long) arguments[0];
            int years = (int) (today / 10_000 - birth / 10_000);
            if (today % 10_000 < birth % 10_000) {
                years--;
            }
            return years;
        }
    }
}
