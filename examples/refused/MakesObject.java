import javax.cache.processor.EntryProcessor;
import javax.cache.processor.MutableEntry;

/** An object is made. */
public class MakesObject implements EntryProcessor<Long, Long, Object> {
    public Object process(MutableEntry<Long, Long> entry, Object... arguments) {
        return new Long(5); // refused
    }
}
