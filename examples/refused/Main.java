import javax.cache.processor.EntryProcessor;
import javax.cache.processor.MutableEntry;

/** A method main takes an array of String. */
public class Main implements EntryProcessor<Long, Long, Object> {
    public Object process(MutableEntry<Long, Long> entry, Object... arguments) {
        return 1L;
    }

    public static void main(String[] arguments) {
    } // refused
}
