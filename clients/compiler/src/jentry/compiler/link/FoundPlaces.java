package jentry.compiler.link;

import java.util.ArrayList;
import java.util.List;
import org.objectweb.asm.Opcodes;
import org.objectweb.asm.Type;
import org.objectweb.asm.tree.ClassNode;
import org.objectweb.asm.tree.FieldInsnNode;
import org.objectweb.asm.tree.InvokeDynamicInsnNode;
import org.objectweb.asm.tree.MethodInsnNode;
import org.objectweb.asm.tree.MultiANewArrayInsnNode;
import org.objectweb.asm.tree.analysis.BasicValue;
import jentry.compiler.ProgramClasses;

/** Tells where the objects come from that the instructions of the program's classes push. */
final class FoundPlaces implements KnownValues.Places, Opcodes {
    private final Linker linker;
    private final Classes classes;

    FoundPlaces(Linker linker) {
        this.linker = linker;
        classes = linker.classes();
    }

    /** Returns whether objects of a class are followed, and not represented by a number. */
    private boolean isFollowed(Object value) {
        if (value == null) {
            return false;
        }
        String name = value.getClass().getName().replace('.', '/');
        return ProgramClasses.isOfPlatform(name) ? Representation.isValue(name) : classes.get(name) != null;
    }

    @Override
    public boolean isNumber(Type type) {
        return linker.representation().isNumber(type);
    }

    @Override
    public Known.Place ofStatic(FieldInsnNode at) {
        if (Leaves.isLeaf(at.desc)) {
            return null;
        } else if (Grids.isOfArrays(at.desc)) {
            Classes.Field field = classes.field(at.owner, at.name, at.desc);
            boolean isConstant = field != null && !linker.statics().writesElements(field.owner());
            return isConstant ? Grids.constant(at, linker.statics().value(field.owner().name, field.node())) : null;
        }
        Object value = null;
        if (Representation.isValue(at.owner)) {
            value = JavaValues.constant(at.owner, at.name);
        } else {
            Classes.Field field = classes.field(at.owner, at.name, at.desc);
            value = field == null || !at.desc.startsWith("L") ? null : linker.statics().value(field.owner().name, field.node());
        }
        return isFollowed(value) ? new Known.Fixed(value) : null;
    }

    @Override
    public Known.Place ofField(Known.Place object, FieldInsnNode at) {
        if (object == null || object.type() == null || !at.desc.startsWith("L")) {
            return null;
        }
        Classes.Field field = classes.field(at.owner, at.name, at.desc);
        if (field == null) {
            return null;
        } else if (object instanceof Known.Fixed fixed) {
            Object value = (field.node().access & ACC_FINAL) == 0 ? null : HeldValues.read(fixed.object().getClass(), fixed.object(), field.owner().name, at.name);
            return isFollowed(value) ? new Known.Fixed(value) : null;
        }
        return ofHeld((Known.Held) object, field);
    }

    private Known.Place ofHeld(Known.Held object, Classes.Field field) {
        List<Capture.Step> path = new ArrayList<>(object.path());
        path.add(new Capture.Step(field.owner().name, field.node().name));
        String declared = Type.getType(field.node().desc).getInternalName();
        boolean isFinal = (field.node().access & ACC_FINAL) != 0;
        Object processor = linker.holder().processor();
        if (processor == null) {
            return isConcrete(declared) ? new Known.Held(List.copyOf(path), declared) : null;
        }
        Object value = HeldValues.at(processor, path);
        if (!isFollowed(value)) {
            return null;
        }
        String type = value.getClass().getName().replace('.', '/');
        boolean isValue = ProgramClasses.isOfPlatform(type) || value instanceof Enum<?>;
        if (isValue) {
            return linker.holder().isConstant(isFinal) ? new Known.Fixed(value) : null;
        }
        return new Known.Held(List.copyOf(path), type);
    }

    private boolean isConcrete(String name) {
        ClassNode node = ProgramClasses.isOfPlatform(name) ? null : classes.get(name);
        return node != null && (node.access & (ACC_INTERFACE | ACC_ABSTRACT | ACC_ENUM)) == 0;
    }

    @Override
    public Known.Place ofLambda(InvokeDynamicInsnNode at, List<? extends BasicValue> captured) {
        return Streams.lambda(at, captured);
    }

    @Override
    public Known.Place ofArrays(MultiANewArrayInsnNode at, List<? extends BasicValue> dimensions) {
        return dimensions.size() == 2 ? Grids.made(at, dimensions.get(0), dimensions.get(1)) : null;
    }

    @Override
    public Known.Place ofCall(MethodInsnNode at, List<? extends BasicValue> operands) {
        Object value = JavaValues.result(at, operands);
        if (value != null) {
            return new Known.Fixed(value);
        } else if (at.name.equals("requireNonNull") && at.owner.equals("java/util/Objects")) {
            return Known.place(operands.get(0));
        }
        Known.Place stream = Streams.place(at, operands);
        if (stream != null) {
            return stream;
        }
        Classes.Method target = target(at, operands);
        return target == null ? null : linker.result(target, places(operands));
    }

    static List<Known.Place> places(List<? extends BasicValue> operands) {
        List<Known.Place> places = new ArrayList<>();
        operands.forEach(it -> places.add(Known.place(it)));
        return places;
    }

    /** Returns the method of the program that a call by an interface of Java or JCache runs, or null: where the processor holds another one, for example. */
    private Classes.Method ofInterface(MethodInsnNode at, List<? extends BasicValue> operands) {
        Known.Place receiver = at.getOpcode() == INVOKEINTERFACE ? Known.place(operands.get(0)) : null;
        boolean isOfProgram = receiver != null && receiver.type() != null && !ProgramClasses.isOfPlatform(receiver.type()) && classes.get(receiver.type()) != null;
        return isOfProgram ? classes.virtual(receiver.type(), at.name, at.desc) : null;
    }

    /** Returns the method of the program that a call runs, or null if that isn't known or it is one of Java. */
    Classes.Method target(MethodInsnNode at, List<? extends BasicValue> operands) {
        if (at.name.startsWith("<") || ProgramClasses.isOfPlatform(at.owner)) {
            return ofInterface(at, operands);
        } else if (at.getOpcode() == INVOKESTATIC) {
            return classes.get(at.owner) == null ? null : classes.virtual(at.owner, at.name, at.desc);
        }
        Classes.Method declared = classes.virtual(at.owner, at.name, at.desc);
        boolean isExact = declared != null && (at.getOpcode() == INVOKESPECIAL || (declared.node().access & (ACC_PRIVATE | ACC_STATIC)) != 0);
        if (isExact) {
            return declared;
        }
        Known.Place receiver = Known.place(operands.get(0));
        String type = receiver == null ? null : receiver.type();
        if (type != null) {
            return classes.get(type) == null ? null : classes.virtual(type, at.name, at.desc);
        }
        boolean isFinal = declared != null && (classes.get(at.owner).access & ACC_FINAL) != 0;
        return isFinal && classes.isEnum(at.owner) || linker.packed().isPacked(at.owner) ? declared : null;
    }
}
