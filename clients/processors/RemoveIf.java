package jentry.processors;

import javax.cache.processor.EntryProcessor;
import javax.cache.processor.MutableEntry;

/** {@code remove(key, old)}: removes the entry where its value is the argument and answers 1, else 0. */
public final class RemoveIf implements EntryProcessor<Long, Long, Object> {
    @Override
    public Object process(MutableEntry<Long, Long> entry, Object... arguments) {
        long old = (Long) arguments[0];
        if (entry.exists() && entry.getValue() == old) {
            entry.remove();
            return 1;
        }
        return 0;
    }
}
