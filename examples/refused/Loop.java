import javax.cache.processor.EntryProcessor;
import javax.cache.processor.MutableEntry;

/** A loop jumps back. */
public class Loop implements EntryProcessor<Long, Long, Object> {
    public Object process(MutableEntry<Long, Long> entry, Object... arguments) {
        long sum = 0;
        for (int i = 0; i < arguments.length; i++) { // refused
            sum += (Long) arguments[i];
        }
        return sum;
    }
}
