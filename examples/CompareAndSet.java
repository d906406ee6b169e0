import javax.cache.processor.EntryProcessor;
import javax.cache.processor.MutableEntry;

/**
 * Sets the value to the second argument where it is the first one. A null stands for no value, on both sides.
 * Returns 1 where the value was the expected one, else 0.
 */
public class CompareAndSet implements EntryProcessor<Long, Long, Integer> {
    public Integer process(MutableEntry<Long, Long> entry, Object... arguments) {
        Long expected = (Long) arguments[0];
        Long wanted = (Long) arguments[1];
        if (!same(entry.getValue(), expected)) {
            return 0;
        }
        if (wanted == null) {
            entry.remove();
        } else {
            entry.setValue(wanted);
        }
        return 1;
    }

    private static boolean same(Long a, Long b) {
        if (a == null || b == null) {
            return a == null && b == null;
        }
        return a.longValue() == b.longValue();
    }
}
