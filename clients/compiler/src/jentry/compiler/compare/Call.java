package jentry.compiler.compare;

import java.util.Arrays;
import java.util.stream.Collectors;

/**
 * An invocation.
 *
 * @param key the entry's key
 * @param value the entry's value, or null if there is none
 * @param arguments Longs, Integers, Booleans and nulls, at most eight
 */
public record Call(long key, Long value, Object... arguments) {
    /** Returns the call with no more than this many arguments. */
    public Call within(int most) {
        return arguments.length <= most ? this : new Call(key, value, Arrays.copyOf(arguments, most));
    }

    /** Returns the call with these arguments in front. */
    public Call behind(Object... hidden) {
        Object[] all = Arrays.copyOf(hidden, hidden.length + arguments.length, Object[].class);
        System.arraycopy(arguments, 0, all, hidden.length, arguments.length);
        return new Call(key, value, all);
    }

    /** Returns the arguments of `jentry run` for this call. */
    @Override
    public String toString() {
        String words = Arrays.stream(arguments).map(it -> it instanceof Integer ? it + "i" : String.valueOf(it)).collect(Collectors.joining(", "));
        return "key " + key + ", value " + (value == null ? "none" : value) + ", arguments [" + words + "]";
    }
}
