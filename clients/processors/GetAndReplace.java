package jentry.processors;

import javax.cache.processor.EntryProcessor;
import javax.cache.processor.MutableEntry;

/** {@code getAndReplace(key, value)}: replaces the value of an entry by the argument and answers the one before; null where there is no entry. */
public final class GetAndReplace implements EntryProcessor<Long, Long, Object> {
    @Override
    public Object process(MutableEntry<Long, Long> entry, Object... arguments) {
        if (!entry.exists()) {
            return null;
        }
        Long before = entry.getValue();
        entry.setValue((Long) arguments[0]);
        return before;
    }
}
