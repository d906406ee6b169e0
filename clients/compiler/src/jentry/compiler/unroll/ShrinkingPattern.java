package jentry.compiler.unroll;

import java.util.HashSet;
import java.util.List;
import java.util.Set;
import java.util.function.ToIntFunction;
import org.objectweb.asm.Opcodes;
import org.objectweb.asm.tree.analysis.Frame;

/**
 * What a loop does to a value until its test fails.
 *
 * @param what the pattern, for notes
 * @param isSignedShift whether it shifts by >>
 * @param passes the number of passes for what is known where the loop is entered; {@link Shrinkage#UNBOUNDED} if that is too little
 */
record ShrinkingPattern(String what, boolean isSignedShift, ToIntFunction<Frame<AbstractValue>> passes) implements Opcodes {
    /** How one pass changes a value. */
    private enum Kind { REMOVES_BIT, SHIFTS_RIGHT, SHIFTS_LEFT, SHORTENS_RUNS, SHIFTS_SIGNED, DIVIDES }

    /**
     * One pass of a value.
     *
     * @param by the distance of a shift, or the divisor
     */
    private record Step(Kind kind, long by) { }

    /**
     * Returns the pattern of a loop, or null.
     *
     * @param test the condition under which the loop goes on
     * @param ends the locals at the end of a pass, for each of its paths
     */
    static ShrinkingPattern of(LoopTest test, List<Frame<Term>> ends) {
        for (LoopTest one : List.of(test, test.mirrored())) {
            ShrinkingPattern halving = HalvingPattern.of(one, ends);
            ShrinkingPattern ofTwo = halving != null ? halving : NewtonPattern.of(one, ends);
            if (ofTwo != null) {
                return ofTwo;
            }
            ShrinkingPattern masked = ofMasked(one, ends);
            if (masked != null) {
                return masked;
            }
            for (Term self : shrinking(one, ends)) {
                ShrinkingPattern found = ofValue(one, self, ends);
                found = found != null ? found : euclid(one, self, ends);
                found = found != null ? found : SteppingPattern.of(one, self, ends);
                if (found != null) {
                    return found;
                }
            }
        }
        return null;
    }

    /** Returns the locals that the left side of the test reads before a pass changes them, or as a pass has changed them. */
    private static Set<Term> shrinking(LoopTest test, List<Frame<Term>> ends) {
        Set<Term> found = new HashSet<>();
        Term left = test.left();
        if (left.isLocal()) {
            found.add(left);
        } else if (left.opcode() == I2L && left.left().isLocal()) {
            found.add(left.left());
        }
        for (int local = 0; local < ends.get(0).getLocals(); local++) {
            int number = local;
            if (!left.isLocal() && !left.isConstant() && ends.stream().allMatch(it -> it.getLocal(number).equals(left))) {
                found.add(Term.local(left.size(), local));
            }
        }
        return found;
    }

    // ---- one value

    /** Returns the pattern of a value of which the test reads some bits: where these aren't all 0, the value isn't either, but it may be negative. */
    private static ShrinkingPattern ofMasked(LoopTest test, List<Frame<Term>> ends) {
        if (!test.left().isOperation(IAND) || !test.excludesZero()) {
            return null;
        }
        for (Term self : test.left().operands()) {
            ShrinkingPattern found = self.isLocal() ? ofValue(new LoopTest(1, self, Term.constant(0)), self, ends) : null;
            if (found != null) {
                return found;
            }
        }
        return null;
    }

    private static ShrinkingPattern ofValue(LoopTest test, Term self, List<Frame<Term>> ends) {
        if (!test.excludesZero()) {
            return null;
        }
        Step weakest = null;
        for (Frame<Term> end : ends) {
            Step step = step(end.getLocal(self.local()), self);
            if (step == null || weakest != null && step.kind != weakest.kind) {
                return null;
            }
            weakest = weakest == null || Math.abs(step.by) < Math.abs(weakest.by) ? step : weakest;
        }
        Step step = weakest;
        int x = self.local();
        return new ShrinkingPattern(what(step), step.kind == Kind.SHIFTS_SIGNED, frame -> passes(step, frame.getLocal(x), test.requiresPositive()));
    }

    private static String what(Step step) {
        return switch (step.kind) {
            case REMOVES_BIT -> "removes a bit of a value";
            case SHORTENS_RUNS -> "shortens the runs of bits of a value";
            case DIVIDES -> "divides a value by " + step.by;
            default -> "shifts a value by " + step.by;
        };
    }

    private static int passes(Step step, AbstractValue x, boolean isTestedPositive) {
        return switch (step.kind) {
            case REMOVES_BIT -> Shrinkage.bitsRemoved(x);
            case SHIFTS_RIGHT -> Shrinkage.shiftedRight(x, (int) step.by);
            case SHIFTS_LEFT -> Shrinkage.shiftedLeft(x, (int) step.by);
            case SHORTENS_RUNS -> Shrinkage.runsShortened(x, (int) step.by);
            case SHIFTS_SIGNED -> Shrinkage.shiftedSigned(x, (int) step.by, isTestedPositive);
            case DIVIDES -> Shrinkage.divided(x, step.by);
        };
    }

    private static Step step(Term next, Term self) {
        if (removesBit(next, self)) {
            return new Step(Kind.REMOVES_BIT, 1);
        } else if (next.isOperation(IDIV) && next.left().equals(self) && next.right().isConstant() && Math.abs(next.right().number()) > 1) {
            return new Step(Kind.DIVIDES, next.right().number());
        } else if (distance(next, ISHR, self) > 0) {
            return new Step(Kind.SHIFTS_SIGNED, distance(next, ISHR, self));
        }
        boolean isMasked = next.isOperation(IAND);
        for (Term shifted : isMasked ? next.operands() : List.of(next)) {
            Term mask = !isMasked ? null : shifted == next.left() ? next.right() : next.left();
            int right = distance(shifted, IUSHR, self);
            int left = distance(shifted, ISHL, self);
            if (right > 0 || left > 0) {
                Kind kind = self.equals(mask) ? Kind.SHORTENS_RUNS : right > 0 ? Kind.SHIFTS_RIGHT : Kind.SHIFTS_LEFT;
                return new Step(kind, Math.max(right, left));
            }
        }
        return null;
    }

    /** Returns the distance by which a term shifts a value, or 0. */
    private static int distance(Term term, int opcode, Term self) {
        boolean shifts = term.isOperation(opcode) && term.left().equals(self) && term.right().isConstant();
        return shifts ? (int) term.right().number() & self.bits() - 1 : 0;
    }

    private static boolean removesBit(Term next, Term self) {
        if (next.isOperation(IAND)) {
            Term other = next.left().equals(self) ? next.right() : next.right().equals(self) ? next.left() : null;
            boolean isInverted = other != null && other.isOperation(IXOR) && other.right().isConstant(-1);
            return other != null && (other.addedTo(self) == -1 || isInverted && isOneBit(other.left(), self));
        }
        boolean takes = next.isOperation(IXOR) || next.isOperation(ISUB);
        return takes && next.left().equals(self) && isOneBit(next.right(), self);
    }

    /** Returns whether a term is one of the bits that are 1 in a value. */
    private static boolean isOneBit(Term term, Term self) {
        if (term.isOperation(IAND)) {
            Term other = term.left().equals(self) ? term.right() : term.left();
            return (term.left().equals(self) || term.right().equals(self)) && other.isOperation(INEG) && other.left().equals(self);
        } else if (term.isOperation(ISHL)) {
            return term.left().isConstant(1) && term.right().isCall("numberOfTrailingZeros", self);
        }
        return term.isCall("lowestOneBit", self) || term.isCall("highestOneBit", self);
    }

    // ---- two values

    private static ShrinkingPattern euclid(LoopTest test, Term b, List<Frame<Term>> ends) {
        if (!test.excludesZero()) {
            return null;
        }
        Term a = null;
        for (Frame<Term> end : ends) {
            Term next = end.getLocal(b.local());
            Term dividend = remainderBy(next, b);
            if (dividend == null || !dividend.isLocal() || a != null && !a.equals(dividend) || !end.getLocal(dividend.local()).equals(b)) {
                return null;
            }
            a = dividend;
        }
        int most = Shrinkage.euclid(b.size() == 2);
        return new ShrinkingPattern("takes the remainder of two values", false, frame -> most);
    }

    /** Returns the dividend of a remainder, written by % or as a - a / b * b, or null. */
    private static Term remainderBy(Term next, Term b) {
        if (next.isOperation(IREM) && next.right().equals(b)) {
            return next.left();
        } else if (next.isOperation(ISUB) && next.right().isOperation(IMUL)) {
            Term product = next.right();
            Term quotient = product.left().equals(b) ? product.right() : product.left();
            boolean isRemainder = product.isEither(IMUL, quotient, b) && quotient.is(IDIV, next.left(), b);
            return isRemainder ? next.left() : null;
        }
        return null;
    }
}
