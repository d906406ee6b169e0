import javax.cache.processor.EntryProcessor;
import javax.cache.processor.MutableEntry;

/** Sets the bit whose number, 0 to 63, is the argument, an Integer. Returns whether it was set: 1 or 0. */
public class SetBit implements EntryProcessor<Long, Long, Integer> {
    public Integer process(MutableEntry<Long, Long> entry, Object... arguments) {
        long mask = 1L << (Integer) arguments[0];
        long bits = entry.exists() ? entry.getValue() : 0;
        entry.setValue(bits | mask);
        return (bits & mask) != 0 ? 1 : 0;
    }
}
