import javax.cache.processor.EntryProcessor;
import javax.cache.processor.MutableEntry;

/** javac casts what a generic call gives to the type that is wanted. */
public class CastsToComparable implements EntryProcessor<Long, Long, Object> {
    public Object process(MutableEntry<Long, Long> entry, Object... arguments) {
        Comparable<Long> value = entry.getValue(); // refused
        return value;
    }
}
