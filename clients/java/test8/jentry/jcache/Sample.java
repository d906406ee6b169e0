package jentry.jcache;

import javax.cache.processor.EntryProcessor;
import javax.cache.processor.MutableEntry;

/** Processors for tests; compiled with --release 8. */
final class Sample {
    private Sample() { }

    /** Adds its argument, and starts from it if there is no entry. */
    static class Add implements EntryProcessor<Long, Long, Long> {
        @Override public Long process(MutableEntry<Long, Long> entry, Object... arguments) {
            long after = (entry.exists() ? entry.getValue() : 0) + (Long) arguments[0];
            entry.setValue(after);
            return after;
        }
    }

    /** Sets the value to 77 and returns a hundred divided by the value before, or null if that is 1. */
    static class Divides implements EntryProcessor<Long, Long, Long> {
        @Override public Long process(MutableEntry<Long, Long> entry, Object... arguments) {
            long before = entry.getValue();
            entry.setValue(77L);
            return before == 1 ? null : 100 / before;
        }
    }

    static class Key implements EntryProcessor<Long, Long, Long> {
        @Override public Long process(MutableEntry<Long, Long> entry, Object... arguments) {
            return entry.getKey();
        }
    }

    static class Count implements EntryProcessor<Long, Long, Integer> {
        @Override public Integer process(MutableEntry<Long, Long> entry, Object... arguments) {
            return arguments.length;
        }
    }

    /** Returns half of its argument, as a Long or an Integer. */
    static class Half implements EntryProcessor<Long, Long, Number> {
        @Override public Number process(MutableEntry<Long, Long> entry, Object... arguments) {
            if (arguments[0] instanceof Long) {
                return (Long) arguments[0] / 2;
            }
            return (Integer) arguments[0] / 2;
        }
    }

    static class First implements EntryProcessor<Long, Long, Object> {
        @Override public Object process(MutableEntry<Long, Long> entry, Object... arguments) {
            return arguments[0];
        }
    }

    /** Sets its argument, even if that is already the value. */
    static class Sets implements EntryProcessor<Long, Long, Object> {
        @Override public Object process(MutableEntry<Long, Long> entry, Object... arguments) {
            entry.setValue((Long) arguments[0]);
            return null;
        }
    }

    static class Removes implements EntryProcessor<Long, Long, Object> {
        @Override public Object process(MutableEntry<Long, Long> entry, Object... arguments) {
            entry.remove();
            return null;
        }
    }

    static class SetsAndRemoves implements EntryProcessor<Long, Long, Object> {
        @Override public Object process(MutableEntry<Long, Long> entry, Object... arguments) {
            entry.setValue(3L);
            entry.remove();
            return null;
        }
    }

    static class Value implements EntryProcessor<Long, Long, Object> {
        @Override public Object process(MutableEntry<Long, Long> entry, Object... arguments) {
            return entry.getValue();
        }
    }

    static class Exists implements EntryProcessor<Long, Long, Integer> {
        @Override public Integer process(MutableEntry<Long, Long> entry, Object... arguments) {
            return entry.exists() ? 1 : 0;
        }
    }

    /** Removes its entry and divides by zero. */
    static class RemovesAndThrows implements EntryProcessor<Long, Long, Object> {
        @Override public Object process(MutableEntry<Long, Long> entry, Object... arguments) {
            entry.remove();
            return 1L / arguments.length;
        }
    }

    /** Sets its entry and divides by zero. */
    static class PutsAndThrows implements EntryProcessor<Long, Long, Object> {
        @Override public Object process(MutableEntry<Long, Long> entry, Object... arguments) {
            entry.setValue(1L);
            return 1L / arguments.length;
        }
    }

    /** Executes more than 1,500,000 instructions. */
    static class Heavy implements EntryProcessor<Long, Long, Long> {
        @Override public Long process(MutableEntry<Long, Long> entry, Object... arguments) {
            return seven(1);
        }

        private static long one(long it) {
            return it * it + it;
        }

        private static long two(long it) {
            return one(one(one(one(one(one(one(one(it))))))));
        }

        private static long three(long it) {
            return two(two(two(two(two(two(two(two(it))))))));
        }

        private static long four(long it) {
            return three(three(three(three(three(three(three(three(it))))))));
        }

        private static long five(long it) {
            return four(four(four(four(four(four(four(four(it))))))));
        }

        private static long six(long it) {
            return five(five(five(five(five(five(five(five(it))))))));
        }

        private static long seven(long it) {
            return six(six(six(six(six(six(six(six(it))))))));
        }
    }

    /** Has a field that no code uses. */
    static class Unused implements EntryProcessor<Long, Long, Object> {
        long unused;

        @Override public Object process(MutableEntry<Long, Long> entry, Object... arguments) {
            return 9L;
        }
    }

    static class Names implements EntryProcessor<Long, Long, String> {
        @Override public String process(MutableEntry<Long, Long> entry, Object... arguments) {
            return null;
        }
    }

    /** Returns whether its argument is below the value, and sets it then, unless the second argument is false. */
    static class Lowers implements EntryProcessor<Long, Long, Boolean> {
        @Override public Boolean process(MutableEntry<Long, Long> entry, Object... arguments) {
            if (!entry.exists()) {
                return null;
            }
            boolean below = (Long) arguments[0] < entry.getValue();
            boolean sets = (Boolean) arguments[1];
            if (below && sets) {
                entry.setValue((Long) arguments[0]);
            }
            return below;
        }
    }

    static class Loops implements EntryProcessor<Long, Long, Object> {
        @Override public Object process(MutableEntry<Long, Long> entry, Object... arguments) {
            long sum = 0;
            for (int i = 0; i < 8; i++) {
                sum += i;
            }
            return sum;
        }
    }

    static class Prints implements EntryProcessor<Long, Long, Object> {
        @Override public Object process(MutableEntry<Long, Long> entry, Object... arguments) {
            System.out.println("hello");
            return null;
        }
    }

    static class Catches implements EntryProcessor<Long, Long, Object> {
        @Override public Object process(MutableEntry<Long, Long> entry, Object... arguments) {
            try {
                return (Long) arguments[0];
            } catch (ClassCastException e) {
                return null;
            }
        }
    }

    static class Calls implements EntryProcessor<Long, Long, Object> {
        @Override public Object process(MutableEntry<Long, Long> entry, Object... arguments) {
            return Math.abs((Long) arguments[0]);
        }
    }

    static class UsesField implements EntryProcessor<Long, Long, Object> {
        long amount;

        @Override public Object process(MutableEntry<Long, Long> entry, Object... arguments) {
            return amount;
        }
    }

    /** A dense switch, and one whose keys are far apart. */
    static class Switches implements EntryProcessor<Long, Long, Object> {
        @Override public Object process(MutableEntry<Long, Long> entry, Object... arguments) {
            int key = (Integer) arguments[0];
            switch (key) {
                case 0:
                    return 10L;
                case 1:
                    return 11L;
                case 2:
                    return 12L;
                default:
                    return sparse(key);
            }
        }

        private static long sparse(int key) {
            switch (key) {
                case Integer.MIN_VALUE:
                    return -1;
                case 1_000:
                    return 13;
                case Integer.MAX_VALUE:
                    return 14;
                default:
                    return 0;
            }
        }
    }

    static class SwitchOfText implements EntryProcessor<Long, Long, Object> {
        @Override public Object process(MutableEntry<Long, Long> entry, Object... arguments) {
            Object kind = arguments[0];
            switch ((String) kind) {
                case "old":
                    return 1L;
                default:
                    return 0L;
            }
        }
    }

    enum Kind { OLD, NEW }

    static class SwitchOfEnum implements EntryProcessor<Long, Long, Object> {
        @Override public Object process(MutableEntry<Long, Long> entry, Object... arguments) {
            switch (entry.exists() ? Kind.OLD : Kind.NEW) {
                case OLD:
                    return 1L;
                default:
                    return 0L;
            }
        }
    }

    static class HasState implements EntryProcessor<Long, Long, Object> {
        private final long amount;

        HasState(long amount) {
            this.amount = amount;
        }

        @Override public Object process(MutableEntry<Long, Long> entry, Object... arguments) {
            return amount;
        }
    }

    class Inner implements EntryProcessor<Long, Long, Object> {
        @Override public Object process(MutableEntry<Long, Long> entry, Object... arguments) {
            return 1L;
        }
    }

    static EntryProcessor<Long, Long, Object> inner() {
        return new Sample().new Inner();
    }

    static EntryProcessor<Long, Long, Object> anonymous() {
        return new EntryProcessor<Long, Long, Object>() {
            @Override public Object process(MutableEntry<Long, Long> entry, Object... arguments) {
                return 8L;
            }
        };
    }

    static EntryProcessor<Long, Long, Object> local() {
        class Local implements EntryProcessor<Long, Long, Object> {
            @Override public Object process(MutableEntry<Long, Long> entry, Object... arguments) {
                return 7L;
            }
        }
        return new Local();
    }

    static EntryProcessor<Long, Long, Object> capturing(long outside) {
        return new EntryProcessor<Long, Long, Object>() {
            @Override public Object process(MutableEntry<Long, Long> entry, Object... arguments) {
                return outside;
            }
        };
    }
}
