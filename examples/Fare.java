import javax.cache.processor.EntryProcessor;
import javax.cache.processor.MutableEntry;

/**
 * Takes a fare from a balance in cents. The arguments are the passenger's class, an Integer from 0 to 5, and the number
 * of zones, from 1 to 9. Another class pays the full fare. Returns the fare, or -1 where the balance is too small; then
 * nothing is taken.
 */
public class Fare implements EntryProcessor<Long, Long, Object> {
    public Object process(MutableEntry<Long, Long> entry, Object... arguments) {
        int kind = (Integer) arguments[0];
        long zones = (Long) arguments[1];
        long balance = entry.exists() ? entry.getValue() : 0;
        long fare = Math.max(1, Math.min(9, zones)) * perZone(kind);
        if (balance < fare) {
            return -1L;
        }
        entry.setValue(balance - fare);
        return fare;
    }

    private static long perZone(int kind) {
        switch (kind) {
            case 0: // infants
                return 0;
            case 1: // children
            case 2: // pupils
                return 90;
            case 3: // students
                return 120;
            case 4: // the elderly
                return 150;
            case 5: // dogs
                return 60;
            default:
                return 240;
        }
    }
}
