package jentry.jcache.jsr107;

import javax.cache.processor.EntryProcessor;
import javax.cache.processor.MutableEntry;

/** Processors of the suite; compiled with --release 8. */
final class Processors {
    private Processors() { }

    static class Sets implements EntryProcessor<Long, Long, Long> {
        @Override public Long process(MutableEntry<Long, Long> entry, Object... arguments) {
            entry.setValue((Long) arguments[0]);
            return entry.getValue();
        }
    }

    static class Removes implements EntryProcessor<Long, Long, Long> {
        @Override public Long process(MutableEntry<Long, Long> entry, Object... arguments) {
            entry.remove();
            return null;
        }
    }

    static class Value implements EntryProcessor<Long, Long, Long> {
        @Override public Long process(MutableEntry<Long, Long> entry, Object... arguments) {
            return entry.getValue();
        }
    }

    static class Exists implements EntryProcessor<Long, Long, Integer> {
        @Override public Integer process(MutableEntry<Long, Long> entry, Object... arguments) {
            return entry.exists() ? 1 : 0;
        }
    }

    /** Reads the value if its argument is 0. */
    static class ReadsAtZero implements EntryProcessor<Long, Long, Long> {
        @Override public Long process(MutableEntry<Long, Long> entry, Object... arguments) {
            long argument = (Long) arguments[0];
            return argument == 0 ? entry.getValue() : (Long) argument;
        }
    }

    static class Key implements EntryProcessor<Long, Long, Long> {
        @Override public Long process(MutableEntry<Long, Long> entry, Object... arguments) {
            return entry.getKey();
        }
    }

    static class Adds implements EntryProcessor<Long, Long, Long> {
        @Override public Long process(MutableEntry<Long, Long> entry, Object... arguments) {
            long after = (entry.exists() ? entry.getValue() : 0) + (Long) arguments[0];
            entry.setValue(after);
            return after;
        }
    }

    /** Sets its argument, removes the entry, and returns whether it exists then. */
    static class SetsAndRemoves implements EntryProcessor<Long, Long, Integer> {
        @Override public Integer process(MutableEntry<Long, Long> entry, Object... arguments) {
            entry.setValue((Long) arguments[0]);
            entry.remove();
            return entry.exists() ? 1 : 0;
        }
    }

    /** Removes the entry, sets its argument, and returns whether it exists then. */
    static class RemovesAndSets implements EntryProcessor<Long, Long, Integer> {
        @Override public Integer process(MutableEntry<Long, Long> entry, Object... arguments) {
            entry.remove();
            entry.setValue((Long) arguments[0]);
            return entry.exists() ? 1 : 0;
        }
    }

    static class SetsTwice implements EntryProcessor<Long, Long, Long> {
        @Override public Long process(MutableEntry<Long, Long> entry, Object... arguments) {
            entry.setValue((Long) arguments[0]);
            entry.setValue((Long) arguments[1]);
            return entry.getValue();
        }
    }

    static class Nothing implements EntryProcessor<Long, Long, Long> {
        @Override public Long process(MutableEntry<Long, Long> entry, Object... arguments) {
            return null;
        }
    }

    static class Count implements EntryProcessor<Long, Long, Integer> {
        @Override public Integer process(MutableEntry<Long, Long> entry, Object... arguments) {
            return arguments.length;
        }
    }

    static class First implements EntryProcessor<Long, Long, Object> {
        @Override public Object process(MutableEntry<Long, Long> entry, Object... arguments) {
            return arguments[0];
        }
    }

    /** Sets its first argument and divides it by the second. */
    static class SetsAndDivides implements EntryProcessor<Long, Long, Long> {
        @Override public Long process(MutableEntry<Long, Long> entry, Object... arguments) {
            entry.setValue((Long) arguments[0]);
            return (Long) arguments[0] / (Long) arguments[1];
        }
    }

    /** Removes the entry and divides by the argument. */
    static class RemovesAndDivides implements EntryProcessor<Long, Long, Long> {
        @Override public Long process(MutableEntry<Long, Long> entry, Object... arguments) {
            entry.remove();
            return 1 / (Long) arguments[0];
        }
    }

    /** Divides by the value. */
    static class Divides implements EntryProcessor<Long, Long, Long> {
        @Override public Long process(MutableEntry<Long, Long> entry, Object... arguments) {
            return 100 / entry.getValue();
        }
    }
}
