package jentry.compiler.unroll;

import java.util.List;
import java.util.Map;
import org.objectweb.asm.Opcodes;
import org.objectweb.asm.Type;
import org.objectweb.asm.tree.AbstractInsnNode;
import org.objectweb.asm.tree.FieldInsnNode;
import org.objectweb.asm.tree.IincInsnNode;
import org.objectweb.asm.tree.LookupSwitchInsnNode;
import org.objectweb.asm.tree.MethodInsnNode;
import org.objectweb.asm.tree.TableSwitchInsnNode;
import org.objectweb.asm.tree.analysis.Frame;
import org.objectweb.asm.tree.analysis.Interpreter;
import jentry.compiler.profile.Instructions;
import jentry.compiler.profile.Members;

/** Computes what is known after each instruction: constants, ranges of numbers, and lengths of arrays. */
final class ConstantPropagation extends Interpreter<AbstractValue> implements Opcodes {
    /** The maximum number of arguments of an invocation. */
    static final int MOST_ARGUMENTS = 8;

    private final String owner;
    private final Map<String, AbstractValue> returned;

    /**
     * Creates a propagation within a class.
     *
     * @param owner the class
     * @param returned what is known of the results of its methods, by name and descriptor
     */
    ConstantPropagation(String owner, Map<String, AbstractValue> returned) {
        super(ASM9);
        this.owner = owner;
        this.returned = returned;
    }

    @Override
    public AbstractValue newValue(Type type) {
        return type == Type.VOID_TYPE ? null : AbstractValue.unknown(type == null ? 1 : type.getSize());
    }

    @Override
    public AbstractValue newOperation(AbstractInsnNode at) {
        Object number = Instructions.pushed(at);
        if (number != null) {
            return AbstractValue.constant(number);
        } else if (at instanceof FieldInsnNode field) {
            return newValue(Type.getType(field.desc));
        }
        return AbstractValue.unknown(1);
    }

    @Override
    public AbstractValue copyOperation(AbstractInsnNode at, AbstractValue value) {
        return value;
    }

    @Override
    public AbstractValue unaryOperation(AbstractInsnNode at, AbstractValue value) {
        int opcode = at.getOpcode();
        switch (opcode) {
            case CHECKCAST:
                return value;
            case ARRAYLENGTH:
                return value.fact() instanceof AbstractValue.Array array ? AbstractValue.range(1, array.least(), array.most())
                    : AbstractValue.range(1, 0, Integer.MAX_VALUE);
            case NEWARRAY:
                return hasFewLengths(value) || value.isConstant() && value.low() >= 0
                    ? AbstractValue.array((int) value.low(), (int) value.high(), true) : AbstractValue.unknown(1);
            case IINC:
                int by = ((IincInsnNode) at).incr;
                return value.fact() instanceof Integer number ? AbstractValue.constant(number + by) : value.plus(by, by);
            case GETFIELD:
                return newValue(Type.getType(((FieldInsnNode) at).desc));
            case INSTANCEOF:
                return AbstractValue.range(1, 0, 1);
            default:
        }
        Object known = Arithmetic.unary(opcode, value.fact());
        return known != null ? AbstractValue.constant(known) : RangeArithmetic.unary(opcode, value);
    }

    /** Returns whether a length isn't known, but is one of so few that an array of each can be written. */
    static boolean hasFewLengths(AbstractValue length) {
        return !length.isConstant() && length.low() >= 0 && length.high() <= MOST_ARGUMENTS;
    }

    @Override
    public AbstractValue binaryOperation(AbstractInsnNode at, AbstractValue left, AbstractValue right) {
        int opcode = at.getOpcode();
        Object known = Arithmetic.binary(opcode, left.fact(), right.fact());
        if (known != null) {
            return AbstractValue.constant(known);
        }
        return RangeArithmetic.binary(opcode, left, right);
    }

    @Override
    public AbstractValue ternaryOperation(AbstractInsnNode at, AbstractValue array, AbstractValue index, AbstractValue value) {
        return null;
    }

    @Override
    public AbstractValue naryOperation(AbstractInsnNode at, List<? extends AbstractValue> operands) {
        if (!(at instanceof MethodInsnNode call)) {
            return AbstractValue.unknown(1);
        }
        if (call.name.equals("valueOf") && operands.size() == 1 && Members.isLibrary(call)) {
            return AbstractValue.boxed(operands.get(0));
        } else if (operands.size() == 1 && operands.get(0).fact() instanceof AbstractValue.Box box && Members.isLibrary(call)) {
            return unboxed(box.value(), Type.getReturnType(call.desc).getSize());
        } else if (returned.containsKey(call.name + call.desc) && call.owner.equals(owner)) {
            return returned.get(call.name + call.desc);
        }
        boolean ofTwo = call.owner.equals("java/lang/Math") && operands.size() == 2;
        if (ofTwo && call.name.equals("min")) {
            return limited(operands.get(0), operands.get(1), false);
        } else if (ofTwo && call.name.equals("max")) {
            return limited(operands.get(0), operands.get(1), true);
        }
        return newValue(Type.getReturnType(call.desc));
    }

    private static AbstractValue unboxed(AbstractValue value, int size) {
        return value.size() == size ? value : value.isConstant() ? AbstractValue.constant(Arithmetic.unary(size == 2 ? I2L : L2I, value.fact()))
            : RangeArithmetic.unary(size == 2 ? I2L : L2I, value);
    }

    private static AbstractValue limited(AbstractValue a, AbstractValue b, boolean greater) {
        return greater ? AbstractValue.range(a.size(), Math.max(a.low(), b.low()), Math.max(a.high(), b.high()))
            : AbstractValue.range(a.size(), Math.min(a.low(), b.low()), Math.min(a.high(), b.high()));
    }

    @Override
    public void returnOperation(AbstractInsnNode at, AbstractValue value, AbstractValue expected) { }

    @Override
    public AbstractValue merge(AbstractValue a, AbstractValue b) {
        return a.or(b);
    }

    /** Returns the index in {@link ControlFlowGraph#successors} of the only possible successor of a test or a switch, or -1. */
    static int decided(AbstractInsnNode at, Frame<AbstractValue> frame) {
        int opcode = at.getOpcode();
        int top = frame.getStackSize() - 1;
        if (opcode >= IFEQ && opcode <= IFLE) {
            return tested(opcode - IFEQ, frame.getStack(top), AbstractValue.constant(0));
        } else if (opcode >= IF_ICMPEQ && opcode <= IF_ICMPLE) {
            return tested(opcode - IF_ICMPEQ, frame.getStack(top - 1), frame.getStack(top));
        } else if (at instanceof TableSwitchInsnNode it && frame.getStack(top).fact() instanceof Integer key) {
            return key < it.min || key > it.max ? 0 : key - it.min + 1;
        } else if (at instanceof LookupSwitchInsnNode it && frame.getStack(top).fact() instanceof Integer key) {
            return it.keys.indexOf(key) + 1;
        }
        return -1;
    }

    /** Returns 1 if the comparison is always true, 0 if it is always false, else -1. */
    private static int tested(int comparison, AbstractValue a, AbstractValue b) {
        boolean less = a.high() < b.low();
        boolean most = a.high() <= b.low();
        boolean more = a.low() > b.high();
        boolean least = a.low() >= b.high();
        return switch (comparison) {
            case 0 -> most && least ? 1 : less || more ? 0 : -1;
            case 1 -> most && least ? 0 : less || more ? 1 : -1;
            case 2 -> less ? 1 : least ? 0 : -1;
            case 3 -> least ? 1 : less ? 0 : -1;
            case 4 -> more ? 1 : most ? 0 : -1;
            default -> most ? 1 : more ? 0 : -1;
        };
    }
}
