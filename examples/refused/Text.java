import javax.cache.processor.EntryProcessor;
import javax.cache.processor.MutableEntry;

/** A string in the code. */
public class Text implements EntryProcessor<Long, Long, Object> {
    public Object process(MutableEntry<Long, Long> entry, Object... arguments) {
        return "done"; // refused
    }
}
