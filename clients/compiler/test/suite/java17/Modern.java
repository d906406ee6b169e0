import java.util.Map;
import javax.cache.processor.EntryProcessor;
import javax.cache.processor.EntryProcessorException;
import javax.cache.processor.MutableEntry;

/** Records, switch expressions, patterns. */
public final class Modern {
    private Modern() { }

    /** A range of time. */
    record Range(int from, int to) {
        static Range of(long packed) {
            return new Range((int) (packed >> 32), (int) packed);
        }

        long packed() {
            return (long) from << 32 | to & 0xFFFFFFFFL;
        }

        boolean overlaps(Range other) {
            return from < other.to && other.from < to;
        }
    }

    public static final class Book implements EntryProcessor<Long, Long, Boolean> {
        @Override
        public Boolean process(MutableEntry<Long, Long> entry, Object... arguments) {
            var wanted = new Range((Integer) arguments[0], (Integer) arguments[1]);
            if (entry.exists() && Range.of(entry.getValue()).overlaps(wanted)) {
                return false;
            }
            entry.setValue(wanted.packed());
            return true;
        }
    }

    public record Add(long delta) implements EntryProcessor<Long, Long, Long> {
        @Override
        public Long process(MutableEntry<Long, Long> entry, Object... arguments) {
            var sum = entry.exists() ? entry.getValue() + delta : delta;
            entry.setValue(sum);
            return sum;
        }
    }

    public static final class Grade implements EntryProcessor<Long, Long, Integer> {
        @Override
        public Integer process(MutableEntry<Long, Long> entry, Object... arguments) {
            int points = (Integer) arguments[0];
            int grade = switch (points / 10) {
                case 10, 9 -> 1;
                case 8 -> 2;
                case 7 -> 3;
                case 6, 5 -> 4;
                default -> points < 0 ? 0 : 5;
            };
            entry.setValue((long) grade);
            return grade;
        }
    }

    public static final class Sum implements EntryProcessor<Long, Long, Long> {
        @Override
        public Long process(MutableEntry<Long, Long> entry, Object... arguments) {
            long sum = 0;
            for (Object argument : arguments) {
                if (argument instanceof Long number) {
                    sum += number;
                } else if (argument instanceof Integer number) {
                    sum += number * 1000L;
                }
            }
            entry.setValue(sum);
            return sum;
        }
    }

    public static final class Command implements EntryProcessor<Long, Long, Long> {
        private static final int GET = 0;
        private static final int ADD = 1;
        private static final int MAX = 2;

        @Override
        public Long process(MutableEntry<Long, Long> entry, Object... arguments) {
            long value = entry.exists() ? entry.getValue() : 0;
            long result = switch ((Integer) arguments[0]) {
                case GET -> value;
                case ADD -> value + (Long) arguments[1];
                case MAX -> Math.max(value, (Long) arguments[1]);
                default -> throw new EntryProcessorException("no command " + arguments[0]);
            };
            entry.setValue(result);
            return result;
        }
    }

    /** A cell of a grid. */
    enum Direction {
        NORTH(0, -1), EAST(1, 0), SOUTH(0, 1), WEST(-1, 0);

        private final int dx;
        private final int dy;

        Direction(int dx, int dy) {
            this.dx = dx;
            this.dy = dy;
        }
    }

    public static final class Robot implements EntryProcessor<Long, Long, Long> {
        @Override
        public Long process(MutableEntry<Long, Long> entry, Object... arguments) {
            long state = entry.exists() ? entry.getValue() : 0;
            int x = (short) (state >> 16);
            int y = (short) state;
            for (Object move : arguments) {
                Direction direction = Direction.values()[(Integer) move & 3];
                x += direction.dx;
                y += direction.dy;
            }
            long next = (long) (x & 0xFFFF) << 16 | y & 0xFFFF;
            entry.setValue(next);
            return next;
        }
    }

    public static final class CountryCode implements EntryProcessor<Long, Long, Integer> {
        private static final Map<Integer, Integer> CODES = Map.of(1, 840, 44, 826, 49, 276, 33, 250);

        @Override
        public Integer process(MutableEntry<Long, Long> entry, Object... arguments) {
            Integer code = CODES.get((Integer) arguments[0]);
            return code == null ? -1 : code;
        }
    }

    public static final class Describe implements EntryProcessor<Long, Long, String> {
        @Override
        public String process(MutableEntry<Long, Long> entry, Object... arguments) {
            return entry.exists() ? "value " + entry.getValue() : "nothing";
        }
    }

    public static final class Snapshot implements EntryProcessor<Long, Long, long[]> {
        @Override
        public long[] process(MutableEntry<Long, Long> entry, Object... arguments) {
            return new long[] {entry.getKey(), entry.exists() ? entry.getValue() : 0};
        }
    }

    public static final class Matrix implements EntryProcessor<Long, Long, Long> {
        @Override
        public Long process(MutableEntry<Long, Long> entry, Object... arguments) {
            long[][] result = {{1, 0}, {0, 1}};
            long[][] base = {{1, 1}, {1, 0}};
            int n = (Integer) arguments[0] & 63;
            while (n > 0) {
                if ((n & 1) == 1) {
                    result = multiply(result, base);
                }
                base = multiply(base, base);
                n >>= 1;
            }
            entry.setValue(result[0][1]);
            return result[0][1];
        }

        private static long[][] multiply(long[][] a, long[][] b) {
            return new long[][] {
                {a[0][0] * b[0][0] + a[0][1] * b[1][0], a[0][0] * b[0][1] + a[0][1] * b[1][1]},
                {a[1][0] * b[0][0] + a[1][1] * b[1][0], a[1][0] * b[0][1] + a[1][1] * b[1][1]}};
        }
    }

    public static final class Transpose implements EntryProcessor<Long, Long, Long> {
        @Override
        public Long process(MutableEntry<Long, Long> entry, Object... arguments) {
            var grid = new int[8][8];
            long bits = entry.getValue();
            for (var y = 0; y < 8; y++) {
                for (var x = 0; x < 8; x++) {
                    grid[x][y] = (int) (bits >>> y * 8 + x & 1);
                }
            }
            long turned = 0;
            for (var y = 0; y < 8; y++) {
                for (var x = 0; x < 8; x++) {
                    turned |= (long) grid[y][x] << y * 8 + x;
                }
            }
            entry.setValue(turned);
            return turned;
        }
    }

    public static final class Validated implements EntryProcessor<Long, Long, Long> {
        @Override
        public Long process(MutableEntry<Long, Long> entry, Object... arguments) {
            if (arguments.length != 1 || !(arguments[0] instanceof Long amount) || amount < 0) {
                throw new IllegalArgumentException("one amount from 0");
            }
            long sum = Math.addExact(entry.exists() ? entry.getValue() : 0L, amount);
            entry.setValue(sum);
            return sum;
        }
    }
}
