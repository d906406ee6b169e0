package jentry.jcache;

import javax.cache.processor.EntryProcessor;
import javax.cache.processor.MutableEntry;

/** A processor in its own source file. Returns 6. */
public class TopLevel implements EntryProcessor<Long, Long, Object> {
    @Override public Object process(MutableEntry<Long, Long> entry, Object... arguments) {
        return 6L;
    }
}
