import javax.cache.processor.EntryProcessor;
import javax.cache.processor.MutableEntry;

/** A static field is read and written. */
public class StaticCounter implements EntryProcessor<Long, Long, Object> {
    private static long calls;

    public Object process(MutableEntry<Long, Long> entry, Object... arguments) {
        return ++calls; // refused
    }
}
