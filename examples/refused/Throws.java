import javax.cache.processor.EntryProcessor;
import javax.cache.processor.MutableEntry;

/** An exception is thrown whose text is joined at run time; one with a constant text is accepted. */
public class Throws implements EntryProcessor<Long, Long, Object> {
    public Object process(MutableEntry<Long, Long> entry, Object... arguments) {
        if (!entry.exists()) {
            throw new IllegalStateException("no value of the key " + entry.getKey()); // refused
        }
        return entry.getValue();
    }
}
