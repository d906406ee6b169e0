import javax.cache.processor.EntryProcessor;
import javax.cache.processor.MutableEntry;

/** A call of a library method that is not in the list. */
public class UnknownCall implements EntryProcessor<Long, Long, Object> {
    public Object process(MutableEntry<Long, Long> entry, Object... arguments) {
        return Math.abs(entry.getValue()); // refused
    }
}
