import javax.cache.processor.EntryProcessor;
import javax.cache.processor.MutableEntry;

/** Two arrays that together take more than 65,536 words: each takes one more than its length. */
public class TwoBigArrays implements EntryProcessor<Long, Long, Object> {
    public Object process(MutableEntry<Long, Long> entry, Object... arguments) {
        long[] a = new long[32768];
        int[] b = new int[32768];
        return a.length + b.length;
    }
}
