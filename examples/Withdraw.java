import javax.cache.processor.EntryProcessor;
import javax.cache.processor.MutableEntry;

/**
 * Withdraws an amount, the argument, from a balance, the value, and returns what is left. An amount that isn't positive and a
 * balance that doesn't suffice are exceptions, which leave the balance as it was.
 */
public class Withdraw implements EntryProcessor<Long, Long, Long> {
    public Long process(MutableEntry<Long, Long> entry, Object... arguments) {
        long amount = (Long) arguments[0];
        if (amount <= 0) {
            throw new IllegalArgumentException("the amount must be positive");
        }
        long left = (entry.exists() ? entry.getValue() : 0) - amount;
        if (left < 0) {
            throw new IllegalStateException("insufficient funds");
        }
        entry.setValue(left);
        return left;
    }
}
