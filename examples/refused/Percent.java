import javax.cache.processor.EntryProcessor;
import javax.cache.processor.MutableEntry;

/** Arithmetic of double. */
public class Percent implements EntryProcessor<Long, Long, Object> {
    public Object process(MutableEntry<Long, Long> entry, Object... arguments) {
        return (long) (entry.getValue() * 1.19); // refused
    }
}
