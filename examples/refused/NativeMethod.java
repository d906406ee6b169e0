import javax.cache.processor.EntryProcessor;
import javax.cache.processor.MutableEntry;

/** A native method has no body. */
public class NativeMethod implements EntryProcessor<Long, Long, Object> {
    public Object process(MutableEntry<Long, Long> entry, Object... arguments) {
        return now();
    }

    private static native long now();
}
