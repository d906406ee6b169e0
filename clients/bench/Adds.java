import javax.cache.processor.EntryProcessor;
import javax.cache.processor.MutableEntry;

/** Adds its argument to the entry, and returns the sum. */
public class Adds implements EntryProcessor<Long, Long, Long> {
    @Override public Long process(MutableEntry<Long, Long> entry, Object... arguments) {
        long after = (entry.exists() ? entry.getValue() : 0) + (Long) arguments[0];
        entry.setValue(after);
        return after;
    }
}
