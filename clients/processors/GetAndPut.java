package jentry.processors;

import javax.cache.processor.EntryProcessor;
import javax.cache.processor.MutableEntry;

/** {@code getAndPut(key, value)}: answers the value before, or null where there was no entry, and puts the argument. */
public final class GetAndPut implements EntryProcessor<Long, Long, Object> {
    @Override
    public Object process(MutableEntry<Long, Long> entry, Object... arguments) {
        Long before = entry.exists() ? entry.getValue() : null;
        entry.setValue((Long) arguments[0]);
        return before;
    }
}
