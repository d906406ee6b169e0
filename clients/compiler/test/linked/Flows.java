import java.util.Arrays;
import java.util.stream.IntStream;
import java.util.stream.LongStream;
import java.util.stream.Stream;
import javax.cache.processor.EntryProcessor;
import javax.cache.processor.MutableEntry;

/** Processors with streams. */
public class Flows {
    /** Ranges, with and without their ends. */
    public static class Ranges implements EntryProcessor<Long, Long, Long> {
        private final long weight;

        public Ranges(long weight) {
            this.weight = weight;
        }

        private long weighted(long x) {
            return x * weight;
        }

        @Override
        public Long process(MutableEntry<Long, Long> entry, Object... arguments) {
            long key = entry.getKey();
            long squares = LongStream.rangeClosed(1, 20).map(it -> it * it).sum();
            long multiples = LongStream.range(0, 12).filter(it -> it % 3 == key % 3).map(it -> it + key).map(this::weighted).sum();
            int most = IntStream.range(0, (int) (key & 7)).map(it -> it ^ 5).max().orElse(-1);
            long bits = IntStream.rangeClosed(0, 63).filter(it -> (key >>> it & 1) != 0).count();
            return squares + 3 * multiples + 5 * most + 7 * bits + LongStream.range(1, 5).reduce(1, (a, b) -> a * b);
        }
    }

    /** The arguments. */
    public static class Arguments implements EntryProcessor<Long, Long, Long> {
        private final long limit;

        public Arguments(long limit) {
            this.limit = limit;
        }

        @Override
        public Long process(MutableEntry<Long, Long> entry, Object... arguments) {
            long sum = Arrays.stream(arguments).filter(it -> it instanceof Long).mapToLong(it -> (Long) it).map(it -> Math.min(it, limit)).sum();
            long most = Stream.of(arguments).mapToLong(it -> ((Number) it).longValue()).map(Math::abs).max().orElse(entry.getKey());
            boolean isAny = Arrays.stream(arguments).anyMatch(it -> it instanceof Integer);
            boolean areAll = IntStream.range(0, arguments.length).allMatch(it -> ((Number) arguments[it]).longValue() > 0);
            boolean isNone = IntStream.range(0, arguments.length).mapToLong(it -> ((Number) arguments[it]).longValue()).noneMatch(it -> it == 7);
            return sum + most + (isAny ? 1_000 : 0) + (areAll ? 2_000 : 0) + (isNone ? 4_000 : 0);
        }
    }

    /** Arrays. */
    public static class Arrayed implements EntryProcessor<Long, Long, Long> {
        private static final int[] TABLE = {3, 1, 4, 1, 5};

        @Override
        public Long process(MutableEntry<Long, Long> entry, Object... arguments) {
            long[] digits = new long[6];
            long rest = entry.getKey();
            for (int i = 0; i < 6; i++) {
                digits[i] = rest % 10;
                rest /= 10;
            }
            long first = Arrays.stream(digits).filter(it -> it < 0 || it > 4).findFirst().orElse(77);
            return first + LongStream.of(digits).min().orElse(0) + Arrays.stream(TABLE).asLongStream().sum();
        }
    }
}
