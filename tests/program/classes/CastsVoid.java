import javax.cache.processor.EntryProcessor;
import javax.cache.processor.MutableEntry;

/** Casts its argument to Void, which only null passes. */
public class CastsVoid implements EntryProcessor<Long, Long, Object> {
    public Object process(MutableEntry<Long, Long> entry, Object... arguments) {
        return (Void) arguments[0];
    }
}
