package jentry.processors;

import javax.cache.processor.EntryProcessor;
import javax.cache.processor.MutableEntry;

/** {@code putIfAbsent(key, value)}: puts the argument where there is no entry and answers 1, else 0. */
public final class PutIfAbsent implements EntryProcessor<Long, Long, Object> {
    @Override
    public Object process(MutableEntry<Long, Long> entry, Object... arguments) {
        if (entry.exists()) {
            return 0;
        }
        entry.setValue((Long) arguments[0]);
        return 1;
    }
}
