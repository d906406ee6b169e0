import javax.cache.processor.EntryProcessor;
import javax.cache.processor.MutableEntry;

/** `==` of two values of type Long compares references. */
public class ComparesBoxes implements EntryProcessor<Long, Long, Object> {
    public Object process(MutableEntry<Long, Long> entry, Object... arguments) {
        return entry.getKey() == entry.getValue() ? 1 : 0; // refused
    }
}
