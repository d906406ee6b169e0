package jentry.compiler.link;

import java.util.Arrays;
import java.util.List;
import java.util.Objects;

/**
 * What a compiled class takes from the processor object.
 *
 * @param hidden the values that the caller passes in front of the author's arguments, in this order
 * @param guards what the class was compiled for: the processors that hold something else need another class
 */
public record Captures(List<Capture> hidden, List<Guard> guards) {
    /** Nothing. */
    public static final Captures NONE = new Captures(List.of(), List.of());

    /**
     * Something that is part of the compiled class.
     *
     * @param capture where the processor holds it
     * @param expected the value, or the class of the object
     */
    public record Guard(Capture capture, Object expected) {
        boolean holds(Object processor) {
            Object value = capture.of(processor);
            if (expected instanceof Class<?>) {
                return value != null && value.getClass() == expected;
            }
            return Objects.deepEquals(value, expected);
        }

        /** Returns the value as it is now: an array is copied, since the program may write to it. */
        static Object snapshot(Object value) {
            if (value == null || !value.getClass().isArray()) {
                return value;
            }
            Object copy = java.lang.reflect.Array.newInstance(value.getClass().getComponentType(), java.lang.reflect.Array.getLength(value));
            System.arraycopy(value, 0, copy, 0, java.lang.reflect.Array.getLength(value));
            return copy;
        }
    }

    /** Returns whether the class was compiled for this processor. */
    public boolean areOf(Object processor) {
        return guards.stream().allMatch(it -> it.holds(processor));
    }

    /** Returns the hidden arguments for a processor. */
    public Object[] arguments(Object processor) {
        return hidden.stream().map(it -> it.argument(processor)).toArray();
    }

    /** Returns the names of the hidden values. */
    public String names() {
        return String.join(", ", hidden.stream().map(Capture::name).toList());
    }

    @Override
    public String toString() {
        return Arrays.toString(hidden.toArray());
    }
}
