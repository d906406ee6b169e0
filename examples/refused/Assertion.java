import javax.cache.processor.EntryProcessor;
import javax.cache.processor.MutableEntry;

/** An assert makes a static field and its initialiser. */
public class Assertion implements EntryProcessor<Long, Long, Object> { // refused
    public Object process(MutableEntry<Long, Long> entry, Object... arguments) {
        assert entry.exists();
        return 1L;
    }
}
