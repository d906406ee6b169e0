package jentry.processors;

import javax.cache.processor.EntryProcessor;
import javax.cache.processor.MutableEntry;

/** {@code getAndRemove(key)}: answers the value before, or null where there was no entry, and removes the entry. */
public final class GetAndRemove implements EntryProcessor<Long, Long, Object> {
    @Override
    public Object process(MutableEntry<Long, Long> entry, Object... arguments) {
        if (!entry.exists()) {
            return null;
        }
        Long before = entry.getValue();
        entry.remove();
        return before;
    }
}
