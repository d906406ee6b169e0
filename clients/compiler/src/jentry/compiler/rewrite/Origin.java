package jentry.compiler.rewrite;

import java.util.HashSet;
import java.util.List;
import java.util.Set;
import org.objectweb.asm.Opcodes;
import org.objectweb.asm.Type;
import org.objectweb.asm.tree.AbstractInsnNode;
import org.objectweb.asm.tree.ClassNode;
import org.objectweb.asm.tree.MethodNode;
import org.objectweb.asm.tree.TryCatchBlockNode;
import org.objectweb.asm.tree.analysis.Analyzer;
import org.objectweb.asm.tree.analysis.AnalyzerException;
import org.objectweb.asm.tree.analysis.Frame;
import org.objectweb.asm.tree.analysis.Interpreter;
import org.objectweb.asm.tree.analysis.Value;

/**
 * Where a value may come from, through loads, stores, copies and casts.
 *
 * @param size its number of slots
 * @param sources the instructions that produced it, {@link Parameter}s, or the handlers of a caught exception
 */
record Origin(int size, Set<Object> sources) implements Value {
    /** A parameter of a method, by its index. The receiver has index 0; so has the first parameter of a static method. */
    record Parameter(int number) { }

    @Override
    public int getSize() {
        return size;
    }

    /** Returns the origins of the locals and operands before each instruction; null for unreachable ones. */
    static Frame<Origin>[] of(ClassNode owner, MethodNode method, Reader reader) {
        try {
            return new Analyzer<>(reader).analyze(owner.name, method);
        } catch (AnalyzerException e) {
            throw new IllegalStateException("the code of " + method.name + " isn't well formed", e);
        }
    }

    /** Tracks origins, and collects the instructions that use the exception of a handler. */
    static final class Reader extends Interpreter<Origin> implements Opcodes {
        private final Set<AbstractInsnNode> usesOfExceptions = new HashSet<>();
        private int parameters;

        Reader() {
            super(ASM9);
        }

        Set<AbstractInsnNode> usesOfExceptions() {
            return usesOfExceptions;
        }

        private static Origin made(Object source, int size) {
            return new Origin(size, Set.of(source));
        }

        private void use(AbstractInsnNode at, Origin value) {
            if (value.sources.stream().anyMatch(TryCatchBlockNode.class::isInstance)) {
                usesOfExceptions.add(at);
            }
        }

        @Override
        public Origin newValue(Type type) {
            return type == Type.VOID_TYPE ? null : new Origin(type == null ? 1 : type.getSize(), Set.of());
        }

        @Override
        public Origin newParameterValue(boolean isInstance, int local, Type type) {
            return made(new Parameter(parameters++), type.getSize());
        }

        @Override
        public Origin newExceptionValue(TryCatchBlockNode block, Frame<Origin> frame, Type type) {
            return made(block, 1);
        }

        @Override
        public Origin newOperation(AbstractInsnNode at) {
            return made(at, sizeOf(at));
        }

        private static int sizeOf(AbstractInsnNode at) {
            return switch (at.getOpcode()) {
                case LCONST_0, LCONST_1, DCONST_0, DCONST_1 -> 2;
                case LDC -> ((org.objectweb.asm.tree.LdcInsnNode) at).cst instanceof Long
                    || ((org.objectweb.asm.tree.LdcInsnNode) at).cst instanceof Double ? 2 : 1;
                case GETSTATIC, GETFIELD -> Type.getType(((org.objectweb.asm.tree.FieldInsnNode) at).desc).getSize();
                default -> 1;
            };
        }

        @Override
        public Origin copyOperation(AbstractInsnNode at, Origin value) {
            return value;
        }

        @Override
        public Origin unaryOperation(AbstractInsnNode at, Origin value) {
            use(at, value);
            return switch (at.getOpcode()) {
                case CHECKCAST -> value;
                case LNEG, DNEG, I2L, I2D, F2L, F2D, L2D, D2L -> made(at, 2);
                case GETFIELD -> made(at, sizeOf(at));
                default -> made(at, 1);
            };
        }

        @Override
        public Origin binaryOperation(AbstractInsnNode at, Origin left, Origin right) {
            use(at, left);
            use(at, right);
            return switch (at.getOpcode()) {
                case LALOAD, DALOAD, LADD, DADD, LSUB, DSUB, LMUL, DMUL, LDIV, DDIV, LREM, DREM, LSHL, LSHR, LUSHR, LAND, LOR, LXOR -> made(at, 2);
                default -> made(at, 1);
            };
        }

        @Override
        public Origin ternaryOperation(AbstractInsnNode at, Origin array, Origin index, Origin value) {
            use(at, array);
            use(at, value);
            return null;
        }

        @Override
        public Origin naryOperation(AbstractInsnNode at, List<? extends Origin> values) {
            values.forEach(it -> use(at, it));
            Type result = at instanceof org.objectweb.asm.tree.MethodInsnNode call ? Type.getReturnType(call.desc)
                : at instanceof org.objectweb.asm.tree.InvokeDynamicInsnNode it ? Type.getReturnType(it.desc) : Type.INT_TYPE;
            return result == Type.VOID_TYPE ? null : made(at, result.getSize());
        }

        @Override
        public void returnOperation(AbstractInsnNode at, Origin value, Origin expected) {
            use(at, value);
        }

        @Override
        public Origin merge(Origin a, Origin b) {
            if (a.size == b.size && a.sources.containsAll(b.sources)) {
                return a;
            }
            Set<Object> all = new HashSet<>(a.sources);
            all.addAll(b.sources);
            return new Origin(Math.min(a.size, b.size), all);
        }
    }
}
