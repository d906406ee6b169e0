package jentry.compiler.unroll;

import org.objectweb.asm.tree.analysis.Value;

/**
 * What is known about a value on every path to an instruction.
 *
 * @param size its number of slots: 1 or 2
 * @param fact an Integer or a Long for a constant; a Range; an Array; a Box; null if nothing is known
 */
record AbstractValue(int size, Object fact) implements Value {
    /** A number from low to high, inclusive. */
    record Range(long low, long high) { }

    /**
     * An array with between least and most elements.
     *
     * @param isPresent whether it is never null
     */
    record Array(int least, int most, boolean isPresent) { }

    /** A boxed number of which this is known. */
    record Box(AbstractValue value) { }

    private static final long NARROW = 4_096;
    private static final AbstractValue ONE_SLOT = new AbstractValue(1, null);
    private static final AbstractValue TWO_SLOTS = new AbstractValue(2, null);

    /** Returns a value about which nothing is known. */
    static AbstractValue unknown(int size) {
        return size == 2 ? TWO_SLOTS : ONE_SLOT;
    }

    /** Returns a constant, an Integer or a Long. */
    static AbstractValue constant(Object number) {
        return new AbstractValue(number instanceof Long ? 2 : 1, number);
    }

    /** Returns a number within limits. */
    static AbstractValue range(int size, long low, long high) {
        if (low == high) {
            return constant(size == 2 ? (Object) low : (Object) (int) low);
        }
        boolean says = size == 2 ? low > Long.MIN_VALUE || high < Long.MAX_VALUE : low > Integer.MIN_VALUE || high < Integer.MAX_VALUE;
        return says ? new AbstractValue(size, new Range(low, high)) : unknown(size);
    }

    /** Returns an array. */
    static AbstractValue array(int least, int most, boolean isPresent) {
        return new AbstractValue(1, new Array(least, most, isPresent));
    }

    @Override
    public int getSize() {
        return size;
    }

    /** Returns a box of a number. */
    static AbstractValue boxed(AbstractValue value) {
        return value.fact == null ? ONE_SLOT : new AbstractValue(1, new Box(value));
    }

    private boolean isNumber() {
        return isConstant() || fact instanceof Range;
    }

    boolean isConstant() {
        return fact instanceof Integer || fact instanceof Long;
    }

    /** Returns whether the range is so narrow that its numbers can be enumerated. */
    boolean isNarrow() {
        return isConstant() || fact instanceof Range range && range.low >= Integer.MIN_VALUE && range.high <= Integer.MAX_VALUE
            && range.high - range.low <= NARROW;
    }

    /** Returns the sum of narrow values, or an unknown value if the sum may overflow. */
    AbstractValue plus(long low, long high) {
        long least = low() + low;
        long greatest = high() + high;
        boolean fits = isNarrow() && !overflows(low(), low) && !overflows(high(), high)
            && (size == 2 || least >= Integer.MIN_VALUE && greatest <= Integer.MAX_VALUE);
        return fits ? range(size, least, greatest) : unknown(size);
    }

    private static boolean overflows(long a, long b) {
        long sum = a + b;
        return ((a ^ sum) & (b ^ sum)) < 0;
    }

    /** Returns the lowest possible number. */
    long low() {
        if (fact instanceof Range range) {
            return range.low;
        }
        return isConstant() ? ((Number) fact).longValue() : size == 2 ? Long.MIN_VALUE : Integer.MIN_VALUE;
    }

    /** Returns the highest possible number. */
    long high() {
        if (fact instanceof Range range) {
            return range.high;
        }
        return isConstant() ? ((Number) fact).longValue() : size == 2 ? Long.MAX_VALUE : Integer.MAX_VALUE;
    }

    /** Returns what is known about a value that is either this one or the other; nothing if it is widened and the two differ. */
    AbstractValue merged(AbstractValue other, boolean widens) {
        return !widens || equals(other) ? or(other) : unknown(Math.min(size, other.size));
    }

    /** Returns what is known about a value that is either this one or the other. */
    AbstractValue or(AbstractValue other) {
        if (equals(other)) {
            return this;
        } else if (size != other.size || fact == null || other.fact == null) {
            return unknown(Math.min(size, other.size));
        } else if (fact instanceof Array a && other.fact instanceof Array b) {
            return array(Math.min(a.least, b.least), Math.max(a.most, b.most), a.isPresent && b.isPresent);
        } else if (fact instanceof Box a && other.fact instanceof Box b) {
            return boxed(a.value.or(b.value));
        } else if (!isNumber() || !other.isNumber()) {
            return unknown(size);
        }
        return range(size, Math.min(low(), other.low()), Math.max(high(), other.high()));
    }
}
