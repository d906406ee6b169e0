import javax.cache.processor.EntryProcessor;
import javax.cache.processor.MutableEntry;

/** The result is declared Void, so the descriptor of `process` names the type. */
public class VoidResult implements EntryProcessor<Long, Long, Void> {
    public Void process(MutableEntry<Long, Long> entry, Object... arguments) {
        entry.remove();
        return null;
    }
}
