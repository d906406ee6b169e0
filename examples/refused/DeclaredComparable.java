import javax.cache.processor.EntryProcessor;
import javax.cache.processor.MutableEntry;

/** Where ways through the code meet, javac writes down the types of the locals, and Comparable is unknown here. */
public class DeclaredComparable implements EntryProcessor<Long, Long, Object> {
    public Object process(MutableEntry<Long, Long> entry, Object... arguments) {
        Comparable<Long> value = 5L;
        if (entry.exists()) {
            entry.remove();
        }
        return value; // refused
    }
}
