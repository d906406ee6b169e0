package jentry.compiler.unroll;

import java.util.List;
import org.objectweb.asm.Opcodes;
import org.objectweb.asm.tree.analysis.Frame;

/** A loop that moves one of two values to the middle of both, as a binary search does. */
final class HalvingPattern implements Opcodes {
    /** How the middle is computed, which says where it is exact. */
    private enum Form { SUM_UNSIGNED, SUM_SIGNED, SUM_DIVIDED, DISTANCE }

    /**
     * The middle of two values.
     *
     * @param term how it is computed
     * @param isUp whether it is rounded up
     */
    private record Middle(Term term, Form form, boolean isUp) { }

    private final Term low;
    private final Term high;
    private final List<Frame<Term>> ends;

    /** How far the two have to be apart for another pass: 0, 1 or 2. */
    private final int apart;

    private HalvingPattern(Term low, Term high, int apart, List<Frame<Term>> ends) {
        this.low = low;
        this.high = high;
        this.apart = apart;
        this.ends = ends;
    }

    /** Returns the pattern of a loop, or null. */
    static ShrinkingPattern of(LoopTest test, List<Frame<Term>> ends) {
        Term left = test.left();
        Term right = test.right();
        HalvingPattern pattern = null;
        if (left.isLocal() && right.isLocal() && (test.comparison() == 2 || test.comparison() == 5)) {
            pattern = new HalvingPattern(left, right, test.comparison() == 2 ? 1 : 0, ends);
        } else if (left.isOperation(ISUB) && test.comparison() == 4 && right.isConstant(1)) {
            pattern = new HalvingPattern(left.right(), left.left(), 2, ends);
        } else if (left.isOperation(IADD) && test.comparison() == 2 && left.addedTo(left.left()) == 1) {
            pattern = new HalvingPattern(left.left(), right, 2, ends);
        }
        return pattern == null || !pattern.low.isLocal() || !pattern.high.isLocal() ? null : pattern.pattern();
    }

    private ShrinkingPattern pattern() {
        Middle middle = null;
        for (Frame<Term> end : ends) {
            Term nextLow = end.getLocal(low.local());
            Term nextHigh = end.getLocal(high.local());
            boolean movesLow = nextHigh.isLocal() && nextHigh.local() == high.local();
            boolean movesHigh = nextLow.isLocal() && nextLow.local() == low.local();
            Middle one = movesLow == movesHigh ? null : middle(movesLow ? nextLow : nextHigh);
            if (one == null || middle != null && !one.equals(middle) || !shrinks(one, movesLow ? nextLow : nextHigh, movesLow)) {
                return null;
            }
            middle = one;
        }
        Form form = middle.form;
        return new ShrinkingPattern("halves the distance of two values", false,
            frame -> passes(form, frame.getLocal(low.local()), frame.getLocal(high.local())));
    }

    private int passes(Form form, AbstractValue least, AbstractValue most) {
        long top = most.high();
        long bottom = least.low();
        long greatest = least.size() == 2 ? Long.MAX_VALUE : Integer.MAX_VALUE;
        boolean isExact = switch (form) {
            case SUM_UNSIGNED -> bottom >= 0;
            case SUM_SIGNED -> bottom >= -(greatest / 2) && top <= greatest / 2;
            case SUM_DIVIDED -> bottom >= 0 && top <= greatest / 2;
            case DISTANCE -> top <= greatest / 2 && bottom >= -(greatest / 2) || bottom >= 0;
        };
        return isExact ? Shrinkage.halved(least, most, apart == 0) : Shrinkage.UNBOUNDED;
    }

    /** Returns whether the move gets the two closer, as the lemma has it. */
    private boolean shrinks(Middle middle, Term next, boolean movesLow) {
        long beyond = next.equals(middle.term) ? 0 : next.addedTo(middle.term);
        if (movesLow) {
            return beyond == 1 || beyond == 0 && (apart == 2 || apart == 1 && middle.isUp);
        }
        return beyond == -1 || beyond == 0 && (apart == 2 || apart == 1 && !middle.isUp);
    }

    /** Returns the middle that a term is, or that it is one more or one less of; null for other terms. */
    private Middle middle(Term term) {
        Middle itself = exactMiddle(term);
        boolean isBeside = itself == null && term.isOperation(IADD) && Math.abs(term.addedTo(term.left())) == 1;
        return isBeside ? exactMiddle(term.left()) : itself;
    }

    private Middle exactMiddle(Term term) {
        if (isHalf(term)) {
            Term sum = term.left();
            boolean isUp = sum.isOperation(IADD) && sum.addedTo(sum.left()) == 1;
            Term plain = isUp ? sum.left() : sum;
            Form form = term.isOperation(IUSHR) ? Form.SUM_UNSIGNED : term.isOperation(ISHR) ? Form.SUM_SIGNED : Form.SUM_DIVIDED;
            return plain.isEither(IADD, low, high) ? new Middle(term, form, isUp) : null;
        } else if (term.isOperation(IADD)) {
            Term half = term.left().equals(low) ? term.right() : term.right().equals(low) ? term.left() : null;
            if (half != null && isHalf(half)) {
                Term distance = half.left();
                boolean isUp = distance.isOperation(IADD) && distance.addedTo(distance.left()) == 1;
                return (isUp ? distance.left() : distance).is(ISUB, high, low) ? new Middle(term, Form.DISTANCE, isUp) : null;
            }
        }
        return null;
    }

    /** Returns whether a term is another one divided by 2. */
    static boolean isHalf(Term term) {
        return (term.isOperation(IUSHR) || term.isOperation(ISHR)) && term.right().isConstant(1) || term.isOperation(IDIV) && term.right().isConstant(2);
    }
}
