import javax.cache.processor.EntryProcessor;
import javax.cache.processor.MutableEntry;

/** The class has no method process of its own: it inherits a default method. */
public class InheritedProcess implements EntryProcessor<Long, Long, Object>, One {
}

interface One extends EntryProcessor<Long, Long, Object> {
    default Object process(MutableEntry<Long, Long> entry, Object... arguments) {
        return 1L;
    }
}
