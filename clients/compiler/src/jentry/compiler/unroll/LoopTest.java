package jentry.compiler.unroll;

import org.objectweb.asm.Opcodes;
import org.objectweb.asm.tree.analysis.Frame;

/**
 * The condition under which a loop goes on.
 *
 * @param comparison 0 to 5 for ==, !=, <, >=, > and <=
 * @param left its left side
 * @param right its right side
 */
record LoopTest(int comparison, Term left, Term right) implements Opcodes {
    /**
     * Returns the condition of a test.
     *
     * @param frame the operands before the test
     * @param jumps whether the loop goes on where the test jumps
     */
    static LoopTest of(int opcode, Frame<Term> frame, boolean jumps) {
        int top = frame.getStackSize() - 1;
        boolean isOfTwo = opcode >= IF_ICMPEQ;
        int comparison = (isOfTwo ? opcode - IF_ICMPEQ : opcode - IFEQ) ^ (jumps ? 0 : 1);
        Term value = frame.getStack(top);
        LoopTest test = isOfTwo ? new LoopTest(comparison, frame.getStack(top - 1), value)
            : value.opcode() == LCMP ? new LoopTest(comparison, value.left(), value.right())
            : new LoopTest(comparison, value, Term.constant(0));
        return test.left.isConstant() ? test.mirrored() : test;
    }

    /** Returns the same condition with its sides exchanged. */
    LoopTest mirrored() {
        return new LoopTest(Refinement.mirrored(comparison), right, left);
    }

    /** Returns whether the left side isn't 0 where the loop goes on. */
    boolean excludesZero() {
        return right.isConstant() && switch (comparison) {
            case 1 -> right.number() == 0;
            case 2 -> right.number() <= 0;
            case 3 -> right.number() >= 1;
            case 4 -> right.number() >= 0;
            case 5 -> right.number() <= -1;
            default -> right.number() != 0;
        };
    }

    /** Returns whether the left side is positive where the loop goes on. */
    boolean requiresPositive() {
        return right.isConstant() && (comparison == 4 && right.number() >= 0 || comparison == 3 && right.number() >= 1);
    }
}
