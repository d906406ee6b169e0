import javax.cache.processor.EntryProcessor;
import javax.cache.processor.MutableEntry;

/** The key is printed by System.out; of static fields only Boolean.TRUE and Boolean.FALSE are known. */
public class Prints implements EntryProcessor<Long, Long, Object> {
    public Object process(MutableEntry<Long, Long> entry, Object... arguments) {
        System.out.println(entry.getKey()); // refused
        return entry.getValue();
    }
}
