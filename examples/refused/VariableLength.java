import javax.cache.processor.EntryProcessor;
import javax.cache.processor.MutableEntry;

/** The length of an array comes from a variable. */
public class VariableLength implements EntryProcessor<Long, Long, Object> {
    public Object process(MutableEntry<Long, Long> entry, Object... arguments) {
        int length = 4;
        long[] row = new long[length]; // refused
        return row.length;
    }
}
