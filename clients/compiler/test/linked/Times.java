import java.time.DayOfWeek;
import java.time.Duration;
import java.time.LocalDate;
import java.util.concurrent.TimeUnit;
import javax.cache.processor.EntryProcessor;
import javax.cache.processor.MutableEntry;

/** Processors with units, durations and dates. */
public class Times {
    /** Converts by units: constant ones, one that is held, and one by its ordinal. */
    public static class Units implements EntryProcessor<Long, Long, Long> {
        private static final TimeUnit DEFAULT = TimeUnit.SECONDS;
        private final TimeUnit unit;

        public Units(TimeUnit unit) {
            this.unit = unit;
        }

        @Override
        public Long process(MutableEntry<Long, Long> entry, Object... arguments) {
            long key = entry.getKey();
            TimeUnit by = TimeUnit.values()[(int) (key & 7)];
            long sum = TimeUnit.MILLISECONDS.toHours(key) + DEFAULT.toNanos(key) + unit.convert(key, DEFAULT) + by.toMinutes(key);
            return unit == TimeUnit.DAYS ? -sum : sum + TimeUnit.HOURS.toSeconds(2);
        }
    }

    /** Constant durations. */
    public static class Lease implements EntryProcessor<Long, Long, Long> {
        private static final Duration LEASE = Duration.ofMinutes(5);
        private static final Duration GRACE = LEASE.plusSeconds(30);

        @Override
        public Long process(MutableEntry<Long, Long> entry, Object... arguments) {
            Duration local = Duration.ofHours(2).multipliedBy(3);
            return entry.getKey() + LEASE.toMillis() + GRACE.getSeconds() + local.toMinutes() + Duration.ofDays(1).toHours();
        }
    }

    /** Dates in proleptic arithmetic. */
    public static class DueDate implements EntryProcessor<Long, Long, Long> {
        @Override
        public Long process(MutableEntry<Long, Long> entry, Object... arguments) {
            LocalDate start = LocalDate.ofEpochDay(entry.getKey() % 10_000_000);
            LocalDate due = start.plusMonths(1).withDayOfMonth(1);
            if (due.getDayOfWeek() == DayOfWeek.SATURDAY || due.getDayOfWeek() == DayOfWeek.SUNDAY) {
                due = due.plusDays(8 - due.getDayOfWeek().getValue());
            }
            entry.setValue(due.toEpochDay());
            return due.isAfter(start.plusWeeks(2)) ? due.getYear() * 10_000L + due.getMonthValue() * 100 + due.getDayOfMonth() : due.lengthOfMonth();
        }
    }

    /** A switch of the day of the week, and dates by their parts. */
    public static class Shift implements EntryProcessor<Long, Long, Long> {
        private static final LocalDate FIRST = LocalDate.of(2024, 1, 1);

        @Override
        public Long process(MutableEntry<Long, Long> entry, Object... arguments) {
            LocalDate day = FIRST.plusDays(entry.getKey() % 100_000);
            long shift;
            switch (day.getDayOfWeek()) {
                case SATURDAY:
                    shift = 3;
                    break;
                case SUNDAY:
                    shift = 0;
                    break;
                default:
                    shift = day.isLeapYear() ? 2 : 1;
            }
            return shift * 1_000 + day.getDayOfYear() + LocalDate.of(day.getYear(), 12, 31).lengthOfYear();
        }
    }

    /** Fails where the day doesn't exist. */
    public static class Parts implements EntryProcessor<Long, Long, Long> {
        private final LocalDate start;

        public Parts(long day) {
            start = LocalDate.ofEpochDay(day % 1_000_000);
        }

        @Override
        public Long process(MutableEntry<Long, Long> entry, Object... arguments) {
            return LocalDate.of((int) (entry.getKey() % 3_000), (int) (entry.getKey() & 15), (int) (entry.getKey() >> 4 & 31)).toEpochDay()
                - start.minusYears(1).toEpochDay();
        }
    }
}
