import javax.cache.processor.EntryProcessor;
import javax.cache.processor.MutableEntry;

import java.util.function.LongSupplier;

/** A lambda is made by invokedynamic. */
public class Lambda implements EntryProcessor<Long, Long, Object> {
    public Object process(MutableEntry<Long, Long> entry, Object... arguments) {
        LongSupplier five = () -> 5; // refused
        return five.getAsLong();
    }
}
