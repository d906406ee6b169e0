import javax.cache.processor.EntryProcessor;
import javax.cache.processor.MutableEntry;

/** Keeps the greatest argument so far. Arguments may be of Long and of Integer. Returns the value before, or null. */
public class RunningMaximum implements EntryProcessor<Long, Long, Long> {
    public Long process(MutableEntry<Long, Long> entry, Object... arguments) {
        Long before = entry.getValue();
        long seen = ((Number) arguments[0]).longValue();
        entry.setValue(before == null ? seen : Math.max(before, seen));
        return before;
    }
}
