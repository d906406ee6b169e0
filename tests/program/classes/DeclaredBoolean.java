import javax.cache.processor.EntryProcessor;
import javax.cache.processor.MutableEntry;

/** Only the stack map names the type: a local that is declared a Boolean is in use where ways meet. */
public class DeclaredBoolean implements EntryProcessor<Long, Long, Object> {
    public Object process(MutableEntry<Long, Long> entry, Object... arguments) {
        Boolean nothing = null;
        if (entry.exists()) {
            entry.remove();
        }
        return nothing;
    }
}
