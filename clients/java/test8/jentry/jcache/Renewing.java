package jentry.jcache;

import javax.cache.processor.EntryProcessor;
import javax.cache.processor.MutableEntry;

/** Processors for the tests of other packages; compiled with --release 8. */
public final class Renewing {
    private Renewing() { }

    /** Adds its argument, and starts from it if there is no entry. */
    public static final class Add implements EntryProcessor<Long, Long, Long> {
        @Override public Long process(MutableEntry<Long, Long> entry, Object... arguments) {
            long after = (entry.exists() ? entry.getValue() : 0) + (Long) arguments[0];
            entry.setValue(after);
            return after;
        }
    }

    /** Returns the value. */
    public static final class Read implements EntryProcessor<Long, Long, Object> {
        @Override public Object process(MutableEntry<Long, Long> entry, Object... arguments) {
            return entry.getValue();
        }
    }

    /** Sets its argument, even if that is already the value. */
    public static final class Sets implements EntryProcessor<Long, Long, Object> {
        @Override public Object process(MutableEntry<Long, Long> entry, Object... arguments) {
            entry.setValue((Long) arguments[0]);
            return null;
        }
    }

    /** Reads the value if its argument is 0. */
    public static final class ReadsAtZero implements EntryProcessor<Long, Long, Object> {
        @Override public Object process(MutableEntry<Long, Long> entry, Object... arguments) {
            long argument = (Long) arguments[0];
            return argument == 0 ? entry.getValue() : (Long) argument;
        }
    }
}
