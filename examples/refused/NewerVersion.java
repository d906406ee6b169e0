import javax.cache.processor.EntryProcessor;
import javax.cache.processor.MutableEntry;

/** Nothing is wrong with the source: it was compiled with --release 11. */
public class NewerVersion implements EntryProcessor<Long, Long, Object> {
    public Object process(MutableEntry<Long, Long> entry, Object... arguments) {
        return 1L;
    }
}
