import javax.cache.processor.EntryProcessor;
import javax.cache.processor.MutableEntry;

/** An exception is caught. */
public class TryCatch implements EntryProcessor<Long, Long, Object> {
    public Object process(MutableEntry<Long, Long> entry, Object... arguments) {
        try {
            return entry.getValue() / (Long) arguments[0];
        } catch (ArithmeticException e) { // refused
            return null;
        }
    }
}
