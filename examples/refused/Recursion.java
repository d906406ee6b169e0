import javax.cache.processor.EntryProcessor;
import javax.cache.processor.MutableEntry;

/** A method calls itself. */
public class Recursion implements EntryProcessor<Long, Long, Object> {
    public Object process(MutableEntry<Long, Long> entry, Object... arguments) {
        return factorial((Long) arguments[0]);
    }

    private static long factorial(long n) {
        return n < 2 ? 1 : n * factorial(n - 1); // refused
    }
}
