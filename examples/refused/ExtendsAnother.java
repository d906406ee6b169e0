import javax.cache.processor.EntryProcessor;
import javax.cache.processor.MutableEntry;

/** The superclass is not Object. */
public class ExtendsAnother extends Thread implements EntryProcessor<Long, Long, Object> {
    public Object process(MutableEntry<Long, Long> entry, Object... arguments) {
        return 1L;
    }
}
