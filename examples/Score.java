import javax.cache.processor.EntryProcessor;
import javax.cache.processor.MutableEntry;

/**
 * A score in thousandths, of likes, which count 3, and shares, which count 8, by age in hours: these are the arguments,
 * and one that is left out or null counts 0. Stores the score and returns its rank, from 0 to 3.
 */
public class Score implements EntryProcessor<Long, Long, Integer> {
    public Integer process(MutableEntry<Long, Long> entry, Object... arguments) {
        long likes = number(arguments, 0);
        long shares = number(arguments, 1);
        long hours = Math.max(0, number(arguments, 2));
        long score = 1000 * (3 * likes + 8 * shares) / (hours + 2);
        entry.setValue(score);
        return rank(score);
    }

    private static long number(Object[] arguments, int at) {
        if (at >= arguments.length) {
            return 0;
        }
        Object it = arguments[at];
        return it instanceof Number ? ((Number) it).longValue() : 0;
    }

    private static int rank(long score) {
        if (score < 1000) {
            return 0;
        } else if (score < 10_000) {
            return 1;
        } else if (score < 100_000) {
            return 2;
        }
        return 3;
    }
}
