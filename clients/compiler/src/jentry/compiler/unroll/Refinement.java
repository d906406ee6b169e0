package jentry.compiler.unroll;

import org.objectweb.asm.Opcodes;
import org.objectweb.asm.tree.VarInsnNode;
import org.objectweb.asm.tree.analysis.Frame;
import jentry.compiler.profile.Instructions;

/** Narrows the ranges of the locals that are loaded right before a test, separately for each of its two branches. */
final class Refinement implements Opcodes {
    private final ControlFlowGraph graph;

    Refinement(ControlFlowGraph graph) {
        this.graph = graph;
    }

    /**
     * Narrows the ranges of locals.
     *
     * @param frame what is known on the branch after the test; its locals are those before the test
     * @param holds whether the test is true on this branch
     */
    void narrow(int place, Frame<AbstractValue> frame, boolean holds) {
        int opcode = graph.instruction(place).getOpcode();
        boolean isOfInts = opcode >= IF_ICMPEQ && opcode <= IF_ICMPLE;
        boolean isOfZero = opcode >= IFEQ && opcode <= IFLE;
        int comparison = (isOfInts ? opcode - IF_ICMPEQ : opcode - IFEQ) ^ (holds ? 0 : 1);
        if (isOfInts) {
            narrowBoth(place, comparison, frame);
        } else if (isOfZero && isReachedFromBefore(place) && graph.instruction(place - 1).getOpcode() == LCMP) {
            narrowBoth(place - 1, comparison, frame);
        } else if (isOfZero && isReachedFromBefore(place)) {
            narrow(place - 1, comparison, AbstractValue.constant(0), frame);
        }
    }

    private void narrowBoth(int place, int comparison, Frame<AbstractValue> frame) {
        if (!isReachedFromBefore(place) || !isReachedFromBefore(place - 1)) {
            return;
        }
        AbstractValue left = operand(place - 2, frame);
        AbstractValue right = operand(place - 1, frame);
        if (left != null && right != null) {
            narrow(place - 2, comparison, right, frame);
            narrow(place - 1, mirrored(comparison), left, frame);
        }
    }

    private boolean isReachedFromBefore(int place) {
        return place > 0 && graph.predecessors(place).size() == 1 && graph.predecessors(place).get(0) == place - 1;
    }

    private boolean loads(int place) {
        int opcode = graph.instruction(place).getOpcode();
        return opcode == ILOAD || opcode == LLOAD;
    }

    /** Returns what is known about the value that a load or a push puts on the stack; null for other instructions. */
    private AbstractValue operand(int place, Frame<AbstractValue> frame) {
        if (loads(place)) {
            return frame.getLocal(((VarInsnNode) graph.instruction(place)).var);
        }
        Object constant = Instructions.pushed(graph.instruction(place));
        return constant == null ? null : AbstractValue.constant(constant);
    }

    /** Returns the comparison with its sides swapped: of ==, !=, <, >=, > and <=. */
    static int mirrored(int comparison) {
        return switch (comparison) {
            case 2 -> 4;
            case 3 -> 5;
            case 4 -> 2;
            case 5 -> 3;
            default -> comparison;
        };
    }

    private void narrow(int place, int comparison, AbstractValue other, Frame<AbstractValue> frame) {
        if (!loads(place)) {
            return;
        }
        int local = ((VarInsnNode) graph.instruction(place)).var;
        AbstractValue value = frame.getLocal(local);
        long low = value.low();
        long high = value.high();
        switch (comparison) {
            case 0 -> {
                low = Math.max(low, other.low());
                high = Math.min(high, other.high());
            }
            case 1 -> {
                low += other.isConstant() && other.low() == low ? 1 : 0;
                high -= other.isConstant() && other.high() == high ? 1 : 0;
            }
            case 2 -> high = Math.min(high, Math.max(other.high(), Long.MIN_VALUE + 1) - 1);
            case 3 -> low = Math.max(low, other.low());
            case 4 -> low = Math.max(low, Math.min(other.low(), Long.MAX_VALUE - 1) + 1);
            default -> high = Math.min(high, other.high());
        }
        if (low <= high && (low != value.low() || high != value.high())) {
            frame.setLocal(local, AbstractValue.range(value.size(), low, high));
        }
    }
}
