import javax.cache.processor.EntryProcessor;
import javax.cache.processor.MutableEntry;

/** Compares a Boolean by equals: of its methods only booleanValue is known. */
public class EqualsOfBoolean implements EntryProcessor<Long, Long, Boolean> {
    public Boolean process(MutableEntry<Long, Long> entry, Object... arguments) {
        Boolean wanted = (Boolean) arguments[0];
        return wanted.equals(arguments[1]); // refused
    }
}
