import javax.cache.processor.EntryProcessor;
import javax.cache.processor.MutableEntry;

/** EntryProcessor is not among the interfaces that the class itself names. */
public class ByAnotherInterface implements Processor {
    public Object process(MutableEntry<Long, Long> entry, Object... arguments) {
        return 1L;
    }
}

interface Processor extends EntryProcessor<Long, Long, Object> {
}
