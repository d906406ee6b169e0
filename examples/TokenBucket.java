import javax.cache.processor.EntryProcessor;
import javax.cache.processor.MutableEntry;

/**
 * A bucket of at most 100 tokens that gains 5 tokens a second. The arguments are the time in seconds and the number
 * of tokens to take. The value holds the time of the last call in its upper bits and the tokens in its lower 8 bits.
 * Returns the tokens that are left, or -1 where there are too few; then none is taken.
 */
public class TokenBucket implements EntryProcessor<Long, Long, Long> {
    private static final long MOST = 100;
    private static final long A_SECOND = 5;

    public Long process(MutableEntry<Long, Long> entry, Object... arguments) {
        long now = (Long) arguments[0];
        long wanted = (Long) arguments[1];
        long tokens = MOST;
        if (entry.exists()) {
            long state = entry.getValue();
            long last = state >> 8;
            now = Math.max(now, last);
            tokens = refilled(state & 255, now - last);
        }
        boolean enough = wanted >= 0 && wanted <= tokens;
        if (enough) {
            tokens -= wanted;
        }
        entry.setValue(now << 8 | tokens);
        return enough ? tokens : -1;
    }

    private static long refilled(long tokens, long seconds) {
        return seconds >= MOST ? MOST : Math.min(MOST, tokens + seconds * A_SECOND);
    }
}
