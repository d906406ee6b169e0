import javax.cache.processor.EntryProcessor;
import javax.cache.processor.MutableEntry;

/**
 * Fletcher's checksum of the value's eight bytes, by way of a small array. There are no loops, so the code goes over
 * the array by eight calls of a method. Returns the checksum and changes nothing.
 */
public class Checksum implements EntryProcessor<Long, Long, Long> {
    public Long process(MutableEntry<Long, Long> entry, Object... arguments) {
        long value = entry.getValue();
        int[] bytes = new int[8];
        half(bytes, 0, (int) (value >>> 32));
        half(bytes, 4, (int) value);
        int[] sums = new int[2];
        four(sums, bytes, 0);
        four(sums, bytes, 4);
        return (long) (sums[1] << 8 | sums[0]);
    }

    private static void half(int[] bytes, int from, int word) {
        bytes[from] = word >>> 24;
        bytes[from + 1] = word >>> 16 & 255;
        bytes[from + 2] = word >>> 8 & 255;
        bytes[from + 3] = word & 255;
    }

    private static void four(int[] sums, int[] bytes, int from) {
        add(sums, bytes[from]);
        add(sums, bytes[from + 1]);
        add(sums, bytes[from + 2]);
        add(sums, bytes[from + 3]);
    }

    private static void add(int[] sums, int one) {
        sums[0] = (sums[0] + one) % 255;
        sums[1] = (sums[1] + sums[0]) % 255;
    }
}
