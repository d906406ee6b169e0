import javax.cache.processor.EntryProcessor;
import javax.cache.processor.MutableEntry;

/**
 * An account in cents. The arguments are an operation, by the code of its letter, and an amount: d deposits it, w
 * withdraws it if so much is there, i adds so many thousandths of the balance, and x closes the account. Returns the
 * balance, or null where the operation isn't known or can't be done; then nothing changes.
 */
public class Account implements EntryProcessor<Long, Long, Object> {
    public Object process(MutableEntry<Long, Long> entry, Object... arguments) {
        char operation = (char) ((Number) arguments[0]).intValue();
        long amount = (Long) arguments[1];
        long balance = entry.exists() ? entry.getValue() : 0;
        if (amount < 0) {
            return null;
        }
        switch (operation) {
            case 'd':
                balance += amount;
                break;
            case 'w':
                if (balance < amount) {
                    return null;
                }
                balance -= amount;
                break;
            case 'i':
                balance += balance * amount / 1000;
                break;
            case 'x':
                entry.remove();
                return balance;
            default:
                return null;
        }
        entry.setValue(balance);
        return balance;
    }
}
