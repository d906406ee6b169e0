import javax.cache.processor.EntryProcessor;
import javax.cache.processor.MutableEntry;

/**
 * A lease on the key: the value is its holder. The first argument is who asks, and with a second argument of 0 the
 * holder gives the lease back. Returns the holder afterwards, or null where there is none.
 */
public class Lease implements EntryProcessor<Long, Long, Long> {
    public Long process(MutableEntry<Long, Long> entry, Object... arguments) {
        long who = (Long) arguments[0];
        boolean release = arguments.length > 1 && (Long) arguments[1] == 0;
        if (!entry.exists()) {
            if (!release) {
                entry.setValue(who);
            }
        } else if (release && entry.getValue() == who) {
            entry.remove();
        }
        return entry.getValue();
    }
}
