package jentry.compiler.unroll;

import java.util.List;
import org.objectweb.asm.Opcodes;
import org.objectweb.asm.tree.analysis.Frame;

/** A loop that computes an integer square root by Newton's method: it replaces x by (x + n / x) / 2 as long as that is less. */
final class NewtonPattern implements Opcodes {
    private NewtonPattern() { }

    /** Returns the pattern of a loop, or null. */
    static ShrinkingPattern of(LoopTest test, List<Frame<Term>> ends) {
        Term less = test.left();
        Term x = test.right();
        if (test.comparison() != 2 || !x.isLocal()) {
            return null;
        }
        for (Frame<Term> end : ends) {
            Term next = end.getLocal(x.local());
            boolean isStep = less.isLocal() ? next.equals(less) && isStep(end.getLocal(less.local()), less, ends) : next.equals(less) && isStep(less, x, ends);
            if (!isStep) {
                return null;
            }
        }
        int most = Shrinkage.newton(x.size() == 2);
        return new ShrinkingPattern("computes a square root by Newton's method", false, frame -> most);
    }

    /** Returns whether a term is (x + n / x) / 2 of an n that no pass changes. */
    private static boolean isStep(Term term, Term x, List<Frame<Term>> ends) {
        if (!HalvingPattern.isHalf(term) || !term.left().isOperation(IADD)) {
            return false;
        }
        Term sum = term.left();
        Term quotient = sum.left().equals(x) ? sum.right() : sum.left();
        return sum.isEither(IADD, x, quotient) && quotient.isOperation(IDIV) && quotient.right().equals(x) && quotient.left().isFixed(ends);
    }
}
