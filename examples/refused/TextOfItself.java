import javax.cache.processor.EntryProcessor;
import javax.cache.processor.MutableEntry;

/** The result of toString is a String, though nobody calls it. */
public class TextOfItself implements EntryProcessor<Long, Long, Object> {
    public Object process(MutableEntry<Long, Long> entry, Object... arguments) {
        return 1L;
    }

    @Override
    public String toString() {
        return null; // refused
    }
}
