import javax.cache.processor.EntryProcessor;
import javax.cache.processor.MutableEntry;

/** A call of an interface's method whose result, a char, stands in no descriptor of the profile. */
public class CallsByChar implements EntryProcessor<Long, Long, Object> {
    public Object process(MutableEntry<Long, Long> entry, Object... arguments) {
        CharSequence text = null;
        return (int) text.charAt(0); // refused
    }
}
