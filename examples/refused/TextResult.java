import javax.cache.processor.EntryProcessor;
import javax.cache.processor.MutableEntry;

/** The result is declared a String, so javac writes a method `process` whose result is unknown here. */
public class TextResult implements EntryProcessor<Long, Long, String> {
    public String process(MutableEntry<Long, Long> entry, Object... arguments) {
        return entry.exists() ? "there" : null; // refused
    }
}
