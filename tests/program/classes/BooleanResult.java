import javax.cache.processor.EntryProcessor;
import javax.cache.processor.MutableEntry;

/** The result is declared a Boolean, so the descriptor of `process` names the type. */
public class BooleanResult implements EntryProcessor<Long, Long, Boolean> {
    public Boolean process(MutableEntry<Long, Long> entry, Object... arguments) {
        return entry.exists();
    }
}
