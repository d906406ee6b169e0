import javax.cache.processor.EntryProcessor;
import javax.cache.processor.MutableEntry;

/** Processors that the compiler refuses. */
public class Refused {
    /** A loop that ends depending on the data only. */
    public static class Endless implements EntryProcessor<Long, Long, Integer> {
        public Integer process(MutableEntry<Long, Long> entry, Object... arguments) {
            int count = 0;
            long rest = entry.getKey();
            while (rest != 1) {
                rest = rest % 2 == 0 ? rest / 2 : 3 * rest + 1;
                count++;
            }
            return count;
        }
    }

    /** A loop up to a number that the caller passes. */
    public static class AsTold implements EntryProcessor<Long, Long, Long> {
        public Long process(MutableEntry<Long, Long> entry, Object... arguments) {
            long sum = 0;
            int most = (Integer) arguments[0];
            for (int i = 0; i < most; i++) {
                sum += i;
            }
            return sum;
        }
    }

    /** An array with a length that the caller passes. */
    public static class Variable implements EntryProcessor<Long, Long, Long> {
        public Long process(MutableEntry<Long, Long> entry, Object... arguments) {
            long[] values = new long[(Integer) arguments[0]];
            return (long) values.length;
        }
    }
}
