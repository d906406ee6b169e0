package jentry.compiler.unroll;

import java.util.ArrayList;
import java.util.HashMap;
import java.util.List;
import java.util.Map;
import java.util.Set;
import org.objectweb.asm.Opcodes;
import org.objectweb.asm.Type;
import org.objectweb.asm.tree.AbstractInsnNode;
import org.objectweb.asm.tree.FieldInsnNode;
import org.objectweb.asm.tree.IincInsnNode;
import org.objectweb.asm.tree.InvokeDynamicInsnNode;
import org.objectweb.asm.tree.MethodInsnNode;
import org.objectweb.asm.tree.VarInsnNode;
import org.objectweb.asm.tree.analysis.AnalyzerException;
import org.objectweb.asm.tree.analysis.Frame;
import org.objectweb.asm.tree.analysis.Interpreter;
import jentry.compiler.profile.Instructions;

/** One pass of a loop on terms: for each path through it what it makes of the locals, and what its tests compare. */
final class LoopPass implements Opcodes {
    private static final int MOST_PATHS = 32;
    private static final Term SECOND_SLOT = Term.unknown(1, "the second slot of a long");

    private final ControlFlowGraph graph;
    private final Loop loop;
    private final Map<Integer, List<Frame<Term>>> before = new HashMap<>();
    private final List<Frame<Term>> ends = new ArrayList<>();

    /**
     * Follows a pass.
     *
     * @throws AnalyzerException if the pass can't be followed
     */
    LoopPass(ControlFlowGraph graph, Loop loop) throws AnalyzerException {
        this.graph = graph;
        this.loop = loop;
        Frame<Term> start = new Frame<>(graph.method().maxLocals, graph.method().maxStack);
        for (int local = 0; local < graph.method().maxLocals; local++) {
            start.setLocal(local, Term.local(1, local));
        }
        before.put(loop.head(), new ArrayList<>(List.of(start)));
        for (int place : graph.inOrder(loop.body())) {
            for (Frame<Term> frame : before.getOrDefault(place, List.of())) {
                Frame<Term> after = new Frame<>(frame);
                after.execute(graph.instruction(place), new Terms());
                for (int next : graph.successors(place)) {
                    lead(place, next, after);
                }
            }
        }
    }

    /** Returns whether a call makes the box of a number, or reads its number. */
    static boolean isOfBox(MethodInsnNode call) {
        boolean isLong = call.owner.equals("java/lang/Long");
        String makes = isLong ? "valueOf(J)Ljava/lang/Long;" : "valueOf(I)Ljava/lang/Integer;";
        return (isLong || call.owner.equals("java/lang/Integer")) && Set.of(makes, isLong ? "longValue()J" : "intValue()I").contains(call.name + call.desc);
    }

    /** Returns the frames of all paths before an instruction. */
    List<Frame<Term>> before(int place) {
        return before.getOrDefault(place, List.of());
    }

    /** Returns the frames of all paths at the end of the pass, where the next one begins. */
    List<Frame<Term>> ends() {
        return ends;
    }

    private void lead(int from, int to, Frame<Term> after) throws AnalyzerException {
        if (to == loop.head()) {
            add(ends, after);
        } else if (loop.body().get(to) && !graph.dominates(to, from)) {
            if (!graph.isBefore(from, to)) {
                throw new AnalyzerException(graph.instruction(from), "a loop with two entries");
            }
            Frame<Term> frame = new Frame<>(after);
            // what an inner loop writes isn't followed
            graph.loops().stream().filter(it -> it.head() == to).forEach(inner -> forget(inner, frame));
            add(before.computeIfAbsent(to, it -> new ArrayList<>()), frame);
        }
    }

    private void forget(Loop inner, Frame<Term> frame) {
        inner.body().stream().map(it -> ControlFlowGraph.written(graph.instruction(it))).filter(it -> it >= 0)
            .forEach(local -> frame.setLocal(local, Term.unknown(1, List.of(inner.head(), local))));
    }

    /** Adds the frame of a path. If there are too many, what differs isn't followed. */
    private static void add(List<Frame<Term>> frames, Frame<Term> frame) {
        if (frames.stream().anyMatch(it -> isSame(it, frame))) {
            return;
        } else if (frames.size() < MOST_PATHS) {
            frames.add(frame);
            return;
        }
        Frame<Term> first = frames.get(0);
        for (int local = 0; local < frame.getLocals(); local++) {
            for (Frame<Term> other : frames) {
                boolean differs = !first.getLocal(local).equals(other.getLocal(local)) || !first.getLocal(local).equals(frame.getLocal(local));
                other.setLocal(local, differs ? Term.unknown(1, new Object()) : first.getLocal(local));
            }
        }
    }

    private static boolean isSame(Frame<Term> one, Frame<Term> other) {
        for (int local = 0; local < one.getLocals(); local++) {
            if (!one.getLocal(local).equals(other.getLocal(local))) {
                return false;
            }
        }
        for (int operand = 0; operand < one.getStackSize(); operand++) {
            if (!one.getStack(operand).equals(other.getStack(operand))) {
                return false;
            }
        }
        return true;
    }

    /** Computes the terms of the results of instructions. */
    private static final class Terms extends Interpreter<Term> implements Opcodes {
        Terms() {
            super(ASM9);
        }

        private static Term unknown(AbstractInsnNode at, Type type) {
            return type == Type.VOID_TYPE ? null : Term.unknown(type.getSize(), at);
        }

        @Override
        public Term newValue(Type type) {
            return type == null ? SECOND_SLOT : type == Type.VOID_TYPE ? null : Term.unknown(type.getSize(), new Object());
        }

        @Override
        public Term newOperation(AbstractInsnNode at) {
            Object number = Instructions.pushed(at);
            return number != null ? Term.constant(number) : unknown(at, at instanceof FieldInsnNode field ? Type.getType(field.desc) : Type.INT_TYPE);
        }

        @Override
        public Term copyOperation(AbstractInsnNode at, Term value) {
            boolean loads = at instanceof VarInsnNode && value.isLocal();
            return loads ? Term.local(at.getOpcode() == LLOAD || at.getOpcode() == LSTORE ? 2 : 1, value.local()) : value;
        }

        @Override
        public Term unaryOperation(AbstractInsnNode at, Term value) {
            int opcode = at.getOpcode();
            return switch (opcode) {
                case IINC -> Term.binary(1, IADD, value, Term.constant(((IincInsnNode) at).incr));
                case INEG, I2B, I2C, I2S, L2I -> Term.unary(1, opcode, value);
                case LNEG, I2L -> Term.unary(2, opcode, value);
                case CHECKCAST -> value;
                case GETFIELD -> unknown(at, Type.getType(((FieldInsnNode) at).desc));
                default -> Term.unknown(1, at);
            };
        }

        @Override
        public Term binaryOperation(AbstractInsnNode at, Term left, Term right) {
            int opcode = at.getOpcode();
            return switch (opcode) {
                case IADD, ISUB, IMUL, IDIV, IREM, ISHL, ISHR, IUSHR, IAND, IOR, IXOR, LCMP -> Term.binary(1, opcode, left, right);
                case LADD, LSUB, LMUL, LDIV, LREM, LSHL, LSHR, LUSHR, LAND, LOR, LXOR -> Term.binary(2, opcode, left, right);
                case LALOAD -> Term.unknown(2, at);
                default -> Term.unknown(1, at);
            };
        }

        @Override
        public Term ternaryOperation(AbstractInsnNode at, Term array, Term index, Term value) {
            return null;
        }

        @Override
        public Term naryOperation(AbstractInsnNode at, List<? extends Term> operands) {
            if (at instanceof MethodInsnNode call && isOfBox(call)) {
                return ofBox(call, operands.get(0));
            }
            boolean isOfLibrary = at instanceof MethodInsnNode it && operands.size() == 1 && (it.name.startsWith("Long_") || it.name.startsWith("Integer_"));
            if (isOfLibrary) {
                MethodInsnNode call = (MethodInsnNode) at;
                return new Term(Type.getReturnType(call.desc).getSize(), INVOKESTATIC, call.name, List.copyOf(operands));
            }
            return unknown(at, at instanceof MethodInsnNode call ? Type.getReturnType(call.desc)
                : at instanceof InvokeDynamicInsnNode it ? Type.getReturnType(it.desc) : Type.INT_TYPE);
        }

        private static Term ofBox(MethodInsnNode call, Term operand) {
            boolean isBoxed = operand.opcode() == INVOKESTATIC && operand.leaf().equals(call.owner + ".valueOf");
            return call.getOpcode() == INVOKEVIRTUAL && isBoxed ? operand.left()
                : new Term(Type.getReturnType(call.desc).getSize(), call.getOpcode(), call.owner + "." + call.name, List.of(operand));
        }

        @Override
        public void returnOperation(AbstractInsnNode at, Term value, Term expected) { }

        @Override
        public Term merge(Term a, Term b) {
            throw new UnsupportedOperationException("paths aren't merged");
        }
    }
}
