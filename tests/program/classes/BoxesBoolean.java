import javax.cache.processor.EntryProcessor;
import javax.cache.processor.MutableEntry;

/** A cast, Boolean.booleanValue and Boolean.valueOf name the type; no descriptor of the class does. */
public class BoxesBoolean implements EntryProcessor<Long, Long, Object> {
    public Object process(MutableEntry<Long, Long> entry, Object... arguments) {
        boolean wanted = (Boolean) arguments[0];
        return entry.exists() == wanted;
    }
}
