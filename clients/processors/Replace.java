package jentry.processors;

import javax.cache.processor.EntryProcessor;
import javax.cache.processor.MutableEntry;

/** {@code replace(key, value)}: replaces the value of an entry by the argument and answers 1; 0 where there is no entry. */
public final class Replace implements EntryProcessor<Long, Long, Object> {
    @Override
    public Object process(MutableEntry<Long, Long> entry, Object... arguments) {
        if (!entry.exists()) {
            return 0;
        }
        entry.setValue((Long) arguments[0]);
        return 1;
    }
}
