import javax.cache.processor.EntryProcessor;
import javax.cache.processor.MutableEntry;

/** The constructor takes a parameter. */
public class WithParameter implements EntryProcessor<Long, Long, Object> {
    private final long amount;

    public WithParameter(long amount) {
        this.amount = amount; // refused
    }

    public Object process(MutableEntry<Long, Long> entry, Object... arguments) {
        return entry.getValue() + amount;
    }
}
