import javax.cache.processor.EntryProcessor;
import javax.cache.processor.MutableEntry;

/** Adds the argument to the value, or begins with the argument where there is no value. Returns the new value. */
public class Add implements EntryProcessor<Long, Long, Long> {
    public Long process(MutableEntry<Long, Long> entry, Object... arguments) {
        long amount = (Long) arguments[0];
        long sum = entry.exists() ? entry.getValue() + amount : amount;
        entry.setValue(sum);
        return sum;
    }
}
