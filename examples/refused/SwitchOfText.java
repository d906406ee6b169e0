import javax.cache.processor.EntryProcessor;
import javax.cache.processor.MutableEntry;

/** A switch of a String. */
public class SwitchOfText implements EntryProcessor<Long, Long, Object> {
    public Object process(MutableEntry<Long, Long> entry, Object... arguments) {
        switch ((String) arguments[0]) { // refused
            case "old":
                return 1;
            default:
                return 0;
        }
    }
}
