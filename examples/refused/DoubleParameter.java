import javax.cache.processor.EntryProcessor;
import javax.cache.processor.MutableEntry;

/** A method has a double among its parameters and results. */
public class DoubleParameter implements EntryProcessor<Long, Long, Object> {
    public Object process(MutableEntry<Long, Long> entry, Object... arguments) {
        return 1L;
    }

    static double half(double x) {
        return x / 2; // refused
    }
}
