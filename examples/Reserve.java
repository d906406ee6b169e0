import javax.cache.processor.EntryProcessor;
import javax.cache.processor.MutableEntry;

/**
 * Takes pieces from a stock: the value is the stock, the first argument how many. With a second argument of true it only
 * asks. Returns whether the stock suffices, or null where there is none.
 */
public class Reserve implements EntryProcessor<Long, Long, Boolean> {
    public Boolean process(MutableEntry<Long, Long> entry, Object... arguments) {
        long wanted = (Long) arguments[0];
        boolean onlyAsks = arguments.length > 1 && (Boolean) arguments[1];
        if (!entry.exists()) {
            return null;
        }
        long left = entry.getValue() - wanted;
        if (left >= 0 && !onlyAsks) {
            entry.setValue(left);
        }
        return left >= 0;
    }
}
