import javax.cache.processor.EntryProcessor;
import javax.cache.processor.MutableEntry;

/** A processor that is an enum. */
public enum OneInstance implements EntryProcessor<Long, Long, Object> {
    INSTANCE;

    public Object process(MutableEntry<Long, Long> entry, Object... arguments) {
        return 1L;
    }
}
