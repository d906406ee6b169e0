import javax.cache.processor.EntryProcessor;
import javax.cache.processor.MutableEntry;

/** A switch of an enum. */
public class SwitchOfEnum implements EntryProcessor<Long, Long, Object> {
    enum Kind { OLD, NEW }

    public Object process(MutableEntry<Long, Long> entry, Object... arguments) {
        switch (entry.exists() ? Kind.OLD : Kind.NEW) { // refused
            case OLD:
                return 1;
            default:
                return 0;
        }
    }
}
