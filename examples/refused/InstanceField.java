import javax.cache.processor.EntryProcessor;
import javax.cache.processor.MutableEntry;

/** A field of the instance is written and read. */
public class InstanceField implements EntryProcessor<Long, Long, Object> {
    private long sum;

    public Object process(MutableEntry<Long, Long> entry, Object... arguments) {
        sum += entry.getValue(); // refused
        return sum;
    }
}
