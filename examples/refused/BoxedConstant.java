import javax.cache.processor.EntryProcessor;
import javax.cache.processor.MutableEntry;

/** A constant of type Long is made by a static initialiser; one of type long is not. */
public class BoxedConstant implements EntryProcessor<Long, Long, Object> {
    private static final Long LIMIT = 100L; // refused

    public Object process(MutableEntry<Long, Long> entry, Object... arguments) {
        return LIMIT;
    }
}
