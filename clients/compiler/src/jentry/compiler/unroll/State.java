package jentry.compiler.unroll;

import java.util.List;
import org.objectweb.asm.tree.AbstractInsnNode;
import org.objectweb.asm.tree.analysis.Frame;

/** An instruction together with the values of the counters of the loops around it: one copy of it in the unrolled code. */
final class State {
    /** Stands for the counters of a guard. */
    static final String GUARD = "past the limit";

    /**
     * The identity of a state.
     *
     * @param place the instruction's number
     * @param counters the values of the counters; an empty string for an unknown one
     */
    record Key(int place, List<Object> counters) {
        /** Spreads small numbers: the keys of a method differ by little, and there are up to 60,000. */
        @Override
        public int hashCode() {
            int hash = place * 0x85EBCA6B;
            for (Object counter : counters) {
                hash = Integer.rotateLeft((hash ^ counter.hashCode()) * 0x9E3779B1, 15);
            }
            return hash;
        }

        @Override
        public boolean equals(Object other) {
            return other instanceof Key key && place == key.place && counters.equals(key.counters);
        }
    }

    private final Key key;
    private final int number;
    private final AbstractInsnNode instruction;

    /** What is known before the instruction. */
    Frame<AbstractValue> frame;

    /** The successors, that of the next instruction first; a decided test has only one. */
    List<State> next = List.of();

    /** Whether the outcome of the test is known. */
    boolean isDecided;

    /** The number that replaces the operands of the instruction, if that is its only effect; or null. */
    Object result;

    /** How often another path to this state changed what is known. */
    int merges;

    State(Key key, int number, AbstractInsnNode instruction, Frame<AbstractValue> frame) {
        this.key = key;
        this.number = number;
        this.instruction = instruction;
        this.frame = frame;
    }

    int place() {
        return key.place();
    }

    /** Returns whether it is none of the code, but where a run ends that goes on past the limit of a loop. */
    boolean isGuard() {
        return key.counters().equals(List.of(GUARD));
    }

    int number() {
        return number;
    }

    AbstractInsnNode instruction() {
        return instruction;
    }

    int opcode() {
        return instruction.getOpcode();
    }

    /** Returns what is known about the operand {@code below} places below the top. */
    AbstractValue operand(int below) {
        return frame.getStack(frame.getStackSize() - 1 - below);
    }
}
