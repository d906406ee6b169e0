import java.time.Duration;
import java.time.LocalDate;
import java.util.concurrent.TimeUnit;
import javax.cache.processor.EntryProcessor;
import javax.cache.processor.EntryProcessorException;
import javax.cache.processor.MutableEntry;

/** Jobs, deadlines, retries and shifts. */
public final class Scheduling {
    private static final Duration LEASE = Duration.ofMinutes(15);

    private Scheduling() { }

    public static class NextRun implements EntryProcessor<Long, Long, Long> {
        @Override
        public Long process(MutableEntry<Long, Long> entry, Object... arguments) {
            var now = (Long) arguments[0];
            var period = (Long) arguments[1];
            var next = entry.exists() ? entry.getValue() : now;
            while (next <= now) {
                next += period;
            }
            entry.setValue(next);
            return next;
        }
    }

    public static class NextRunByDivision implements EntryProcessor<Long, Long, Long> {
        @Override
        public Long process(MutableEntry<Long, Long> entry, Object... arguments) {
            var now = (Long) arguments[0];
            var period = (Long) arguments[1];
            var first = entry.exists() ? entry.getValue() : now;
            var next = first > now ? first : first + (Math.floorDiv(now - first, period) + 1) * period;
            entry.setValue(next);
            return next;
        }
    }

    public static class Expire implements EntryProcessor<Long, Long, Boolean> {
        @Override
        public Boolean process(MutableEntry<Long, Long> entry, Object... arguments) {
            if (entry.exists() && (Long) arguments[0] - entry.getValue() > LEASE.toMillis()) {
                entry.remove();
                return true;
            }
            return false;
        }
    }

    public static class HoursOf implements EntryProcessor<Long, Long, Long> {
        @Override
        public Long process(MutableEntry<Long, Long> entry, Object... arguments) {
            return TimeUnit.MILLISECONDS.toHours(entry.getValue());
        }
    }

    public static class DueDate implements EntryProcessor<Long, Long, Long> {
        @Override
        public Long process(MutableEntry<Long, Long> entry, Object... arguments) {
            var start = LocalDate.ofEpochDay((Long) arguments[0]);
            var due = start.plusMonths(1).withDayOfMonth(1);
            entry.setValue(due.toEpochDay());
            return due.toEpochDay();
        }
    }

    public static class Retry implements EntryProcessor<Long, Long, Long> {
        private static final int MOST = 5;

        @Override
        public Long process(MutableEntry<Long, Long> entry, Object... arguments) {
            var tried = entry.exists() ? entry.getValue() : 0L;
            if (tried >= MOST) {
                entry.remove();
                throw new EntryProcessorException("gave up after " + tried);
            }
            entry.setValue(tried + 1);
            return 1L << tried;
        }
    }

    public static class Priority implements EntryProcessor<Long, Long, Integer> {
        @Override
        public Integer process(MutableEntry<Long, Long> entry, Object... arguments) {
            var ready = entry.exists() ? entry.getValue() : 0L;
            if (ready == 0) {
                return -1;
            }
            var highest = 63 - Long.numberOfLeadingZeros(ready);
            entry.setValue(ready & ~(1L << highest));
            return highest;
        }
    }

    public static class RoundRobin implements EntryProcessor<Long, Long, Integer> {
        @Override
        public Integer process(MutableEntry<Long, Long> entry, Object... arguments) {
            var alive = ((Long) arguments[0]).longValue();
            if (alive == 0) {
                throw new IllegalStateException("nobody is alive");
            }
            var at = entry.exists() ? entry.getValue().intValue() : 0;
            do {
                at = (at + 1) % 64;
            } while ((alive >>> at & 1) == 0);
            entry.setValue((long) at);
            return at;
        }
    }

    public static class Shift implements EntryProcessor<Long, Long, Integer> {
        @Override
        public Integer process(MutableEntry<Long, Long> entry, Object... arguments) {
            var hour = (Integer) arguments[0];
            var shift = hour < 6 ? 3 : hour < 14 ? 1 : hour < 22 ? 2 : 3;
            entry.setValue((long) shift);
            return shift;
        }
    }

    public static class Backlog implements EntryProcessor<Long, Long, Long> {
        @Override
        public Long process(MutableEntry<Long, Long> entry, Object... arguments) {
            var capacity = (Integer) arguments[0];
            var backlog = entry.exists() ? entry.getValue() : 0L;
            for (int i = 1; i < arguments.length; i++) {
                backlog += (Integer) arguments[i];
                backlog = Math.max(0, backlog - capacity);
            }
            entry.setValue(backlog);
            return backlog;
        }
    }

    public static class Countdown implements EntryProcessor<Long, Long, Long> {
        @Override
        public Long process(MutableEntry<Long, Long> entry, Object... arguments) {
            int seconds = (Integer) arguments[0] & 0xFFFF;
            int ticks = 0;
            while (seconds > 0) {
                seconds -= 60;
                ticks++;
            }
            return (long) ticks;
        }
    }
}
