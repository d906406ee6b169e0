package jentry.compiler.unroll;

import java.util.List;
import java.util.function.Function;
import org.objectweb.asm.Opcodes;
import org.objectweb.asm.tree.analysis.Frame;

/** A loop that moves a value towards a limit by steps, where the ranges of the value and the limit are known. */
final class SteppingPattern implements Opcodes {
    private SteppingPattern() { }

    /**
     * Returns the pattern of a loop, or null.
     *
     * @param self the local that is moved
     */
    static ShrinkingPattern of(LoopTest test, Term self, List<Frame<Term>> ends) {
        boolean isDown = test.comparison() == 4 || test.comparison() == 3;
        boolean isUp = test.comparison() == 2 || test.comparison() == 5;
        if (!isDown && !isUp) {
            return null;
        }
        // a limit that passes may change isn't known, so neither is the number of passes
        Function<Frame<AbstractValue>, AbstractValue> known = fixed(test.right(), ends);
        Function<Frame<AbstractValue>, AbstractValue> limit = known != null ? known : frame -> AbstractValue.unknown(2);
        Function<Frame<AbstractValue>, AbstractValue> step = null;
        for (Frame<Term> end : ends) {
            Function<Frame<AbstractValue>, AbstractValue> one = step(end.getLocal(self.local()), self, ends);
            if (one == null) {
                return null;
            }
            Function<Frame<AbstractValue>, AbstractValue> other = step;
            step = other == null ? one : frame -> one.apply(frame).or(other.apply(frame));
        }
        Function<Frame<AbstractValue>, AbstractValue> by = step;
        int inclusive = test.comparison() == 3 || test.comparison() == 5 ? 1 : 0;
        return new ShrinkingPattern("moves a value to a limit", false,
            frame -> passes(frame.getLocal(self.local()), limit.apply(frame), by.apply(frame), isDown, inclusive));
    }

    /** Returns the number of passes. An upward loop is the downward one of the negative values. */
    private static int passes(AbstractValue x, AbstractValue limit, AbstractValue step, boolean isDown, int inclusive) {
        AbstractValue value = isDown ? x : negative(x);
        AbstractValue end = isDown ? limit : negative(limit);
        AbstractValue by = isDown ? negative(step) : step;
        boolean isKnown = end.low() > Long.MIN_VALUE + inclusive;
        return isKnown ? Shrinkage.steppedDown(value, end.low() - inclusive, by.low(), by.high()) : Shrinkage.UNBOUNDED;
    }

    private static AbstractValue negative(AbstractValue value) {
        return value.isConstant() ? AbstractValue.constant(Arithmetic.unary(value.size() == 2 ? LNEG : INEG, value.fact()))
            : RangeArithmetic.unary(value.size() == 2 ? LNEG : INEG, value);
    }

    /** Returns what is added to a value, or null. */
    private static Function<Frame<AbstractValue>, AbstractValue> step(Term next, Term self, List<Frame<Term>> ends) {
        if (next.isOperation(IADD)) {
            Term other = next.left().equals(self) ? next.right() : next.right().equals(self) ? next.left() : null;
            return other == null ? null : fixed(other, ends);
        } else if (next.isOperation(ISUB) && next.left().equals(self)) {
            Function<Frame<AbstractValue>, AbstractValue> other = fixed(next.right(), ends);
            return other == null ? null : frame -> negative(other.apply(frame));
        }
        return null;
    }

    /** Returns the value of a term that no pass changes, or null. */
    private static Function<Frame<AbstractValue>, AbstractValue> fixed(Term term, List<Frame<Term>> ends) {
        if (term.isConstant()) {
            return frame -> AbstractValue.constant(term.leaf());
        } else if (term.opcode() == I2L) {
            Function<Frame<AbstractValue>, AbstractValue> narrow = fixed(term.left(), ends);
            return narrow == null ? null : frame -> RangeArithmetic.unary(I2L, narrow.apply(frame));
        }
        return term.isLocal() && term.isFixed(ends) ? frame -> frame.getLocal(term.local()) : null;
    }
}
