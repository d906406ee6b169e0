import javax.cache.processor.EntryProcessor;
import javax.cache.processor.MutableEntry;

/** The constructor writes the field, though javac puts 100 in its place wherever it is read. */
public class FieldInitialiser implements EntryProcessor<Long, Long, Object> {
    private final long limit = 100; // refused

    public Object process(MutableEntry<Long, Long> entry, Object... arguments) {
        return Math.min(entry.getValue(), limit);
    }
}
