import javax.cache.processor.EntryProcessor;
import javax.cache.processor.MutableEntry;

/** Adds 1 to the value while it is below the limit, which is the argument. Returns the new value, or null at the limit. */
public class BoundedIncrement implements EntryProcessor<Long, Long, Long> {
    public Long process(MutableEntry<Long, Long> entry, Object... arguments) {
        long limit = (Long) arguments[0];
        long count = entry.exists() ? entry.getValue() : 0;
        if (count >= limit) {
            return null;
        }
        count++;
        entry.setValue(count);
        return count;
    }
}
