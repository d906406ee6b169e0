package jentry.compiler.link;

import java.util.List;
import java.util.Objects;
import org.objectweb.asm.Opcodes;
import org.objectweb.asm.Type;
import org.objectweb.asm.tree.AbstractInsnNode;
import org.objectweb.asm.tree.ClassNode;
import org.objectweb.asm.tree.FieldInsnNode;
import org.objectweb.asm.tree.InvokeDynamicInsnNode;
import org.objectweb.asm.tree.MethodInsnNode;
import org.objectweb.asm.tree.MethodNode;
import org.objectweb.asm.tree.MultiANewArrayInsnNode;
import org.objectweb.asm.tree.TypeInsnNode;
import org.objectweb.asm.tree.analysis.Analyzer;
import org.objectweb.asm.tree.analysis.AnalyzerException;
import org.objectweb.asm.tree.analysis.BasicInterpreter;
import org.objectweb.asm.tree.analysis.BasicValue;
import org.objectweb.asm.tree.analysis.Frame;
import jentry.compiler.profile.Instructions;

/** Follows types, and the places of objects, through the code of a method. */
final class KnownValues extends BasicInterpreter implements Opcodes {
    /** Tells the places of what instructions push. */
    interface Places {
        /** No places. */
        Places NONE = new Places() { };

        /** Returns whether a value of a type is a number in the linked class. */
        default boolean isNumber(Type type) {
            return false;
        }

        /** Returns the place of what GETSTATIC pushes, or null. */
        default Known.Place ofStatic(FieldInsnNode at) {
            return null;
        }

        /** Returns the place of a field of an object, or null. */
        default Known.Place ofField(Known.Place object, FieldInsnNode at) {
            return null;
        }

        /** Returns the place of a lambda, or null. */
        default Known.Place ofLambda(InvokeDynamicInsnNode at, List<? extends BasicValue> captured) {
            return null;
        }

        /** Returns the place of a new array of arrays, or null. */
        default Known.Place ofArrays(MultiANewArrayInsnNode at, List<? extends BasicValue> dimensions) {
            return null;
        }

        /** Returns the place of a call's result, or null. */
        default Known.Place ofCall(MethodInsnNode at, List<? extends BasicValue> operands) {
            return null;
        }
    }

    private static final Type OBJECT = Type.getObjectType("java/lang/Object");

    private final Places places;
    private final List<Known.Place> parameters;
    private int parameter;

    private KnownValues(Places places, List<Known.Place> parameters) {
        super(ASM9);
        this.places = places;
        this.parameters = parameters;
    }

    /**
     * Returns the locals and operands before each instruction; null for unreachable ones.
     *
     * @param parameters the place of each parameter, of the receiver first; or an empty list
     */
    static Frame<BasicValue>[] of(ClassNode owner, MethodNode method, Places places, List<Known.Place> parameters) {
        try {
            return new Analyzer<>(new KnownValues(places, parameters)).analyze(owner.name, method);
        } catch (AnalyzerException e) {
            throw new IllegalStateException("the code of " + method.name + " isn't well formed", e);
        }
    }

    @Override
    public BasicValue newValue(Type type) {
        boolean isReference = type != null && type.getSort() >= Type.ARRAY && type.getSort() != Type.METHOD;
        return isReference ? new Known(type, null) : super.newValue(type);
    }

    @Override
    public BasicValue newParameterValue(boolean isInstance, int local, Type type) {
        Known.Place place = parameter < parameters.size() ? parameters.get(parameter) : null;
        parameter++;
        return place == null ? newValue(type) : new Known(type, place);
    }

    @Override
    public BasicValue newOperation(AbstractInsnNode at) throws AnalyzerException {
        Object number = Instructions.pushed(at);
        if (number != null) {
            return new Known(number instanceof Long ? Type.LONG_TYPE : Type.INT_TYPE, new Known.Fixed(number));
        }
        return at instanceof FieldInsnNode field ? new Known(Type.getType(field.desc), places.ofStatic(field)) : super.newOperation(at);
    }

    @Override
    public BasicValue unaryOperation(AbstractInsnNode at, BasicValue value) throws AnalyzerException {
        if (at.getOpcode() == GETFIELD) {
            return new Known(Type.getType(((FieldInsnNode) at).desc), places.ofField(Known.place(value), (FieldInsnNode) at));
        } else if (at.getOpcode() == CHECKCAST) {
            return new Known(Type.getObjectType(((TypeInsnNode) at).desc), Known.place(value));
        }
        return super.unaryOperation(at, value);
    }

    @Override
    public BasicValue binaryOperation(AbstractInsnNode at, BasicValue left, BasicValue right) throws AnalyzerException {
        if (at.getOpcode() == AALOAD) {
            boolean isKnown = left.getType() != null && left.getType().getSort() == Type.ARRAY;
            if (isKnown && Known.place(left) instanceof Grids.Grid grid) {
                return new Known(Type.getType(left.getType().getDescriptor().substring(1)), new Grids.Row(grid));
            }
            return newValue(isKnown ? Type.getType(left.getType().getDescriptor().substring(1)) : OBJECT);
        }
        return super.binaryOperation(at, left, right);
    }

    @Override
    public BasicValue naryOperation(AbstractInsnNode at, List<? extends BasicValue> values) throws AnalyzerException {
        if (at instanceof MethodInsnNode call) {
            Type result = Type.getReturnType(call.desc);
            return result == Type.VOID_TYPE ? null : new Known(result, places.ofCall(call, values));
        }
        if (at instanceof MultiANewArrayInsnNode array) {
            return new Known(Type.getType(array.desc), places.ofArrays(array, values));
        }
        if (at instanceof InvokeDynamicInsnNode it) {
            return new Known(Type.getReturnType(it.desc), places.ofLambda(it, values));
        }
        return super.naryOperation(at, values);
    }

    @Override
    public BasicValue merge(BasicValue a, BasicValue b) {
        if (a.equals(b)) {
            return a;
        } else if (a == BasicValue.UNINITIALIZED_VALUE || b == BasicValue.UNINITIALIZED_VALUE || a.getSize() != b.getSize()
            || a.isReference() != b.isReference()) {
            return BasicValue.UNINITIALIZED_VALUE;
        } else if (Objects.equals(a.getType(), b.getType()) || isNull(b)) {
            return new Known(a.getType(), Known.either(a, b));
        } else if (isNull(a)) {
            return new Known(b.getType(), Known.either(a, b));
        }
        boolean isMixed = places.isNumber(a.getType()) || places.isNumber(b.getType());
        return !a.isReference() ? BasicValue.UNINITIALIZED_VALUE : new Known(OBJECT, isMixed ? new Known.Lost() : Known.either(a, b));
    }

    private static boolean isNull(BasicValue value) {
        return value.getType() != null && value.getType().getInternalName().equals("null");
    }
}
