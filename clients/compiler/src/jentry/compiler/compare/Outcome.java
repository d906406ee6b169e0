package jentry.compiler.compare;

/**
 * The outcome of an invocation. An exception leaves the entry unchanged.
 *
 * @param thrown the name of the exception's class, or null
 * @param result what was returned: null, a number, a Boolean, or the name of another class
 * @param value the entry's value afterwards, or null if there is none
 */
public record Outcome(String thrown, Object result, Long value) {
    @Override
    public String toString() {
        String end = thrown != null ? "throws " + thrown : "returns " + (result instanceof Integer ? result + "i" : result);
        return end + " and leaves " + (value == null ? "no value" : "the value " + value);
    }
}
