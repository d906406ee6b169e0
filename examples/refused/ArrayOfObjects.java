import javax.cache.processor.EntryProcessor;
import javax.cache.processor.MutableEntry;

/** A method with Object... : each call makes an array of references. */
public class ArrayOfObjects implements EntryProcessor<Long, Long, Object> {
    public Object process(MutableEntry<Long, Long> entry, Object... arguments) {
        return first(entry.getKey(), entry.getValue()); // refused
    }

    private static Object first(Object... all) {
        return all[0];
    }
}
