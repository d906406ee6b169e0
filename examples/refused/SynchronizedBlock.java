import javax.cache.processor.EntryProcessor;
import javax.cache.processor.MutableEntry;

/** A synchronized block has exception handlers that give the lock back. */
public class SynchronizedBlock implements EntryProcessor<Long, Long, Object> {
    public Object process(MutableEntry<Long, Long> entry, Object... arguments) {
        synchronized (this) { // refused
            return entry.getValue();
        }
    }
}
