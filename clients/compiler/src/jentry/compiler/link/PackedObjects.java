package jentry.compiler.link;

import java.util.HashMap;
import java.util.LinkedHashMap;
import java.util.Map;
import org.objectweb.asm.Opcodes;
import org.objectweb.asm.Type;
import org.objectweb.asm.tree.AbstractInsnNode;
import org.objectweb.asm.tree.ClassNode;
import org.objectweb.asm.tree.FieldInsnNode;
import org.objectweb.asm.tree.FieldNode;
import org.objectweb.asm.tree.InsnList;
import org.objectweb.asm.tree.InsnNode;
import org.objectweb.asm.tree.MethodInsnNode;
import org.objectweb.asm.tree.MethodNode;
import org.objectweb.asm.tree.TypeInsnNode;
import org.objectweb.asm.tree.VarInsnNode;
import jentry.compiler.ProgramClasses;
import jentry.compiler.profile.Instructions;
import jentry.compiler.profile.Members;

/**
 * Records and plain classes whose objects become numbers: a boxed long has their fields side by side, and null stays null. They have at most 64 bits of
 * numbers in fields that only their constructors set, and nothing may use the identity of their objects.
 *
 * <p>An object that the linked code has of such a class is of exactly that class: it would have to make one of a subclass, which is refused.
 */
final class PackedObjects implements Opcodes {
    static final Type BOX = Type.getObjectType("java/lang/Long");
    private static final int BITS = 64;
    private static final String OBJECT = "java/lang/Object";

    /** Where the bits of a field are. */
    record Place(Type type, int shift) {
        /** Returns the number of bits of the field. */
        int width() {
            return PackedObjects.width(type);
        }
    }

    private final Classes classes;
    private final boolean isOn;
    private final Map<String, Map<String, Place>> layouts = new HashMap<>();

    /** @param isOn whether there are any */
    PackedObjects(Classes classes, boolean isOn) {
        this.classes = classes;
        this.isOn = isOn;
    }

    private static int width(Type type) {
        return switch (type.getSort()) {
            case Type.BOOLEAN, Type.BYTE -> 8;
            case Type.SHORT, Type.CHAR -> 16;
            case Type.INT -> 32;
            case Type.LONG -> 64;
            default -> BITS + 1;
        };
    }

    /** Returns whether the objects of a class become numbers. */
    boolean isPacked(String name) {
        return isOn && layout(name) != null;
    }

    /** Returns whether the objects of a type become numbers. */
    boolean isPacked(Type type) {
        return type != null && type.getSort() == Type.OBJECT && isPacked(type.getInternalName());
    }

    /** Returns the places of the fields of a class by their names, or null if its objects stay objects. */
    Map<String, Place> layout(String name) {
        if (!layouts.containsKey(name)) {
            layouts.put(name, null);
            ClassNode node = ProgramClasses.isOfPlatform(name) ? null : classes.get(name);
            layouts.put(name, node == null || !isSimple(node) ? null : layout(node));
        }
        return layouts.get(name);
    }

    private static boolean isSimple(ClassNode node) {
        boolean isPlain = (node.access & (ACC_INTERFACE | ACC_ABSTRACT | ACC_ENUM)) == 0;
        boolean isOwn = OBJECT.equals(node.superName) || "java/lang/Record".equals(node.superName);
        return isPlain && isOwn && !node.interfaces.contains(Members.PROCESSOR) && Instructions.method(node, "<clinit>", "()V") == null;
    }

    private static Map<String, Place> layout(ClassNode node) {
        Map<String, Place> places = new LinkedHashMap<>();
        int shift = 0;
        for (FieldNode field : node.fields) {
            if ((field.access & ACC_STATIC) != 0) {
                continue;
            }
            Type type = Type.getType(field.desc);
            if (shift + width(type) > BITS) {
                return null;
            }
            places.put(field.name, new Place(type, shift));
            shift += width(type);
        }
        return places.isEmpty() ? null : places;
    }

    /** Returns whether an instruction only makes a packed object ready for its constructor, whose call leaves the number. */
    boolean isMaking(AbstractInsnNode at) {
        AbstractInsnNode made = at.getOpcode() == DUP ? Instructions.previous(at) : at;
        return made != null && made.getOpcode() == NEW && isPacked(((TypeInsnNode) made).desc)
            && Instructions.next(made).getOpcode() == DUP;
    }

    /**
     * Returns whether an instruction uses a packed object in a way that a number in its place allows.
     *
     * @param below which of the operands the object is
     * @param type its class
     * @param method the method of the instruction
     */
    static boolean allows(AbstractInsnNode at, int below, Type type, MethodNode method) {
        if (at instanceof MethodInsnNode call) {
            Type[] types = Type.getArgumentTypes(call.desc);
            return below < types.length ? types[types.length - 1 - below].equals(type) : call.owner.equals(type.getInternalName());
        }
        return switch (at.getOpcode()) {
            case GETFIELD -> ((FieldInsnNode) at).owner.equals(type.getInternalName());
            case ARETURN -> Type.getReturnType(method.desc).equals(type);
            case CHECKCAST -> ((TypeInsnNode) at).desc.equals(type.getInternalName());
            case IFNULL, IFNONNULL -> true;
            default -> false;
        };
    }

    /** Returns whether an instruction calls a constructor of a packed object. */
    boolean isConstructor(AbstractInsnNode at) {
        return at instanceof MethodInsnNode call && call.name.equals("<init>") && isPacked(call.owner);
    }

    /** Returns whether a field is one of a packed object. */
    boolean isField(AbstractInsnNode at) {
        return at.getOpcode() == GETFIELD && isPacked(((FieldInsnNode) at).owner);
    }

    /** Adds instructions that take a field out of the number on the stack. */
    void addRead(FieldInsnNode at, InsnList code) {
        Place place = layout(at.owner).get(at.name);
        code.add(new MethodInsnNode(INVOKEVIRTUAL, BOX.getInternalName(), "longValue", "()J", false));
        if (place.shift > 0) {
            code.add(Instructions.push(place.shift));
            code.add(new InsnNode(LUSHR));
        }
        if (place.type.getSort() != Type.LONG) {
            code.add(new InsnNode(L2I));
        }
        switch (place.type.getSort()) {
            case Type.SHORT -> code.add(new InsnNode(I2S));
            case Type.BYTE -> code.add(new InsnNode(I2B));
            case Type.CHAR -> code.add(new InsnNode(I2C));
            case Type.BOOLEAN -> {
                code.add(new InsnNode(ICONST_1));
                code.add(new InsnNode(IAND));
            }
            default -> { }
        }
    }

    /** Adds instructions that throw if the object that a method was called on is null. */
    static void addTestOfReceiver(InsnList code) {
        code.add(new VarInsnNode(ALOAD, 0));
        code.add(new MethodInsnNode(INVOKEVIRTUAL, BOX.getInternalName(), "longValue", "()J", false));
        code.add(new InsnNode(POP2));
    }

    /** Returns the constructor as a static method that returns the number, or null if it uses the object in another way than to set its fields. */
    Classes.Method constructor(MethodInsnNode call) {
        ClassNode owner = classes.get(call.owner);
        MethodNode written = new PackedConstructor(owner, Instructions.method(owner, "<init>", call.desc), layout(call.owner)).written();
        return written == null ? null : new Classes.Method(owner, written);
    }
}
