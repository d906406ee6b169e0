import javax.cache.processor.EntryProcessor;
import javax.cache.processor.MutableEntry;

/** An array of another element type than int and long. */
public class ByteArray implements EntryProcessor<Long, Long, Object> {
    public Object process(MutableEntry<Long, Long> entry, Object... arguments) {
        byte[] bytes = new byte[8]; // refused
        return bytes.length;
    }
}
