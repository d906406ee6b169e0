import javax.cache.processor.EntryProcessor;
import javax.cache.processor.MutableEntry;

/** A table in a static field is made by a static initialiser. */
public class StaticTable implements EntryProcessor<Long, Long, Object> {
    private static final long[] PRICES = {5, 8, 13, 21}; // refused

    public Object process(MutableEntry<Long, Long> entry, Object... arguments) {
        return PRICES[(Integer) arguments[0]];
    }
}
