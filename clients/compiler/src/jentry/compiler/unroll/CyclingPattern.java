package jentry.compiler.unroll;

import java.util.HashSet;
import java.util.List;
import java.util.Set;
import org.objectweb.asm.Opcodes;
import org.objectweb.asm.tree.analysis.Frame;

/**
 * A loop that goes round a ring, as {@code do { x = (x + 1) % 64; } while (..)} does: its only test depends on one value that passes change, each pass
 * computes that value from itself alone, and there are few values that it can have.
 */
final class CyclingPattern implements Opcodes {
    private static final int MOST_VALUES = 1_024;

    private final Term self;
    private final Term next;

    private CyclingPattern(Term self, Term next) {
        this.self = self;
        this.next = next;
    }

    /**
     * Returns the pattern of a loop, or null.
     *
     * @param test the condition of its only exit
     */
    static ShrinkingPattern of(LoopTest test, List<Frame<Term>> ends) {
        Set<Term> read = new HashSet<>();
        boolean isPure = addLocals(test.left(), read) & addLocals(test.right(), read);
        List<Term> changed = read.stream().filter(it -> !it.isFixed(ends)).toList();
        if (!isPure || changed.size() != 1) {
            return null;
        }
        Term self = changed.get(0);
        Term next = ends.get(0).getLocal(self.local());
        Set<Term> used = new HashSet<>();
        boolean isAlone = addLocals(next, used) && ends.stream().allMatch(it -> it.getLocal(self.local()).equals(next))
            && used.stream().allMatch(it -> it.local() == self.local() || it.isFixed(ends));
        CyclingPattern pattern = new CyclingPattern(self, next);
        return isAlone && pattern.values() <= MOST_VALUES
            ? new ShrinkingPattern("computes one of few values from the last one", false, pattern::passes) : null;
    }

    /** Adds the locals that a term reads. Returns whether it reads nothing else. */
    private static boolean addLocals(Term term, Set<Term> locals) {
        if (term.isLocal()) {
            locals.add(term);
        }
        boolean isPure = term.opcode() != NOP;
        for (Term operand : term.operands()) {
            isPure &= addLocals(operand, locals);
        }
        return isPure;
    }

    /** Returns the limit by the range of all values, or by a smaller one that has the value at the start and all that passes make of its values. */
    private int passes(Frame<AbstractValue> frame) {
        AbstractValue start = frame.getLocal(self.local());
        AbstractValue all = start.or(result(next, start));
        AbstractValue beyond = result(next, all);
        boolean isClosed = all.isNarrow() && all.low() <= beyond.low() && beyond.high() <= all.high();
        return Shrinkage.cycled((int) (isClosed ? Math.min(width(all), values()) : values()));
    }

    /** Returns the number of values that a pass can give of any value, or a large one. */
    private long values() {
        AbstractValue result = result(next, AbstractValue.unknown(self.size()));
        return result.isNarrow() ? width(result) : Long.MAX_VALUE;
    }

    private static long width(AbstractValue narrow) {
        return narrow.high() - narrow.low() + 1;
    }

    /** Returns what is known of a term if this is known of the value; of other locals nothing is. */
    private AbstractValue result(Term term, AbstractValue value) {
        if (term.isConstant()) {
            return AbstractValue.constant(term.leaf());
        } else if (term.isLocal()) {
            return term.local() == self.local() && value.size() == term.size() ? value : AbstractValue.unknown(term.size());
        } else if (term.opcode() == INVOKESTATIC || term.opcode() == INVOKEVIRTUAL) {
            return AbstractValue.unknown(term.size());
        } else if (term.operands().size() == 1) {
            return RangeArithmetic.unary(term.opcode(), result(term.left(), value));
        }
        return RangeArithmetic.binary(term.opcode(), result(term.left(), value), result(term.right(), value));
    }
}
