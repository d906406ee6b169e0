package jentry.processors;

import javax.cache.processor.EntryProcessor;
import javax.cache.processor.MutableEntry;

/** {@code replace(key, old, value)}: replaces the value by the second argument where it is the first and answers 1, else 0. */
public final class ReplaceIf implements EntryProcessor<Long, Long, Object> {
    @Override
    public Object process(MutableEntry<Long, Long> entry, Object... arguments) {
        long old = (Long) arguments[0];
        if (entry.exists() && entry.getValue() == old) {
            entry.setValue((Long) arguments[1]);
            return 1;
        }
        return 0;
    }
}
