package jentry.compiler.unroll;

import java.util.HashSet;
import java.util.List;
import java.util.Set;
import org.objectweb.asm.Opcodes;
import org.objectweb.asm.Type;
import org.objectweb.asm.tree.AbstractInsnNode;
import org.objectweb.asm.tree.FieldInsnNode;
import org.objectweb.asm.tree.InvokeDynamicInsnNode;
import org.objectweb.asm.tree.LdcInsnNode;
import org.objectweb.asm.tree.MethodInsnNode;
import org.objectweb.asm.tree.MethodNode;
import org.objectweb.asm.tree.VarInsnNode;
import org.objectweb.asm.tree.analysis.Analyzer;
import org.objectweb.asm.tree.analysis.AnalyzerException;
import org.objectweb.asm.tree.analysis.Frame;
import org.objectweb.asm.tree.analysis.Interpreter;
import org.objectweb.asm.tree.analysis.Value;

/** Finds which locals are read by the expression that computes an operand. */
final class LocalReads extends Interpreter<LocalReads.Reads> implements Opcodes {
    /**
     * An operand.
     *
     * @param size its number of slots
     * @param locals the locals that its expression loads
     */
    record Reads(int size, Set<Integer> locals) implements Value {
        @Override
        public int getSize() {
            return size;
        }
    }

    private LocalReads() {
        super(ASM9);
    }

    /** Returns the reads of all operands before each instruction of a method; labels and line numbers have an index too. */
    static Frame<Reads>[] of(MethodNode method) {
        try {
            return new Analyzer<>(new LocalReads()).analyze("java/lang/Object", method);
        } catch (AnalyzerException e) {
            throw new IllegalStateException("the code of " + method.name + " isn't well formed", e);
        }
    }

    private static Reads all(int size, Iterable<? extends Reads> values) {
        Set<Integer> locals = new HashSet<>();
        values.forEach(it -> locals.addAll(it.locals()));
        return new Reads(size, Set.copyOf(locals));
    }

    @Override
    public Reads newValue(Type type) {
        return type == Type.VOID_TYPE ? null : new Reads(type == null ? 1 : type.getSize(), Set.of());
    }

    @Override
    public Reads newOperation(AbstractInsnNode at) {
        boolean isWide = at.getOpcode() == LCONST_0 || at.getOpcode() == LCONST_1 || at.getOpcode() == DCONST_0 || at.getOpcode() == DCONST_1
            || at instanceof LdcInsnNode it && (it.cst instanceof Long || it.cst instanceof Double)
            || at instanceof FieldInsnNode field && Type.getType(field.desc).getSize() == 2;
        return new Reads(isWide ? 2 : 1, Set.of());
    }

    @Override
    public Reads copyOperation(AbstractInsnNode at, Reads value) {
        boolean loads = at.getOpcode() >= ILOAD && at.getOpcode() <= ALOAD;
        return loads ? new Reads(value.size, Set.of(((VarInsnNode) at).var)) : value;
    }

    @Override
    public Reads unaryOperation(AbstractInsnNode at, Reads value) {
        boolean isWide = switch (at.getOpcode()) {
            case LNEG, DNEG, I2L, I2D, F2L, F2D, L2D, D2L -> true;
            case GETFIELD -> Type.getType(((FieldInsnNode) at).desc).getSize() == 2;
            default -> false;
        };
        return new Reads(isWide ? 2 : 1, value.locals);
    }

    @Override
    public Reads binaryOperation(AbstractInsnNode at, Reads left, Reads right) {
        boolean isWide = switch (at.getOpcode()) {
            case LALOAD, DALOAD, LADD, DADD, LSUB, DSUB, LMUL, DMUL, LDIV, DDIV, LREM, DREM, LSHL, LSHR, LUSHR, LAND, LOR, LXOR -> true;
            default -> false;
        };
        return all(isWide ? 2 : 1, List.of(left, right));
    }

    @Override
    public Reads ternaryOperation(AbstractInsnNode at, Reads array, Reads index, Reads value) {
        return null;
    }

    @Override
    public Reads naryOperation(AbstractInsnNode at, List<? extends Reads> values) {
        Type result = at instanceof MethodInsnNode call ? Type.getReturnType(call.desc)
            : at instanceof InvokeDynamicInsnNode it ? Type.getReturnType(it.desc) : Type.INT_TYPE;
        return result == Type.VOID_TYPE ? null : all(result.getSize(), values);
    }

    @Override
    public void returnOperation(AbstractInsnNode at, Reads value, Reads expected) { }

    @Override
    public Reads merge(Reads a, Reads b) {
        return a.size == b.size && a.locals.containsAll(b.locals) ? a : all(Math.min(a.size, b.size), List.of(a, b));
    }
}
