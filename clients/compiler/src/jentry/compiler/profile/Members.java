package jentry.compiler.profile;

import java.util.Set;
import org.objectweb.asm.Opcodes;
import org.objectweb.asm.Type;
import org.objectweb.asm.tree.ClassNode;
import org.objectweb.asm.tree.FieldInsnNode;
import org.objectweb.asm.tree.MethodInsnNode;
import org.objectweb.asm.tree.MethodNode;

/** The types and methods that a class of the profile may use. */
public final class Members implements Opcodes {
    /** The interface of processors. */
    public static final String PROCESSOR = "javax/cache/processor/EntryProcessor";
    /** The interface of entries. */
    public static final String ENTRY = "javax/cache/processor/MutableEntry";
    /** The descriptor of `process` with erased types. */
    public static final String PROCESS = "(L" + ENTRY + ";[Ljava/lang/Object;)Ljava/lang/Object;";
    /** The class of boxed booleans. */
    public static final String BOOLEAN = "java/lang/Boolean";

    private static final String CACHE_ENTRY = "javax/cache/Cache$Entry";
    private static final Set<String> CLASSES = Set.of("java/lang/Object", "java/lang/Number", "java/lang/Long", "java/lang/Integer", BOOLEAN,
        "java/lang/Void", ENTRY, CACHE_ENTRY, PROCESSOR);
    private static final Set<String> ARRAYS = Set.of("[I", "[J", "[Ljava/lang/Object;");
    private static final Set<String> NUMBERS = Set.of("java/lang/Long", "java/lang/Integer", "java/lang/Number");

    private Members() { }

    /** Returns whether a cast, an instanceof or a frame may name this class or array. */
    public static boolean isKnown(String owner, String type) {
        return type.equals(owner) || CLASSES.contains(type) || ARRAYS.contains(type);
    }

    /** Returns whether a parameter or a result may have this type. */
    public static boolean isKnown(String owner, Type type) {
        return switch (type.getSort()) {
            case Type.INT, Type.LONG, Type.BOOLEAN, Type.VOID -> true;
            case Type.ARRAY -> ARRAYS.contains(type.getDescriptor());
            case Type.OBJECT -> type.getInternalName().equals(owner) || CLASSES.contains(type.getInternalName());
            default -> false;
        };
    }

    /** Returns whether a static field is one that the server knows: Boolean.TRUE or FALSE. */
    public static boolean isConstant(FieldInsnNode field) {
        return field.owner.equals(BOOLEAN) && field.desc.equals("L" + BOOLEAN + ";") && (field.name.equals("TRUE") || field.name.equals("FALSE"));
    }

    /** Returns whether a call's target is supported. */
    public static boolean isKnown(ClassNode owner, MethodInsnNode call) {
        return isLibrary(call) || isOwn(owner, call);
    }

    private static boolean isOwn(ClassNode owner, MethodInsnNode call) {
        MethodNode method = Instructions.callee(owner, call);
        if (method == null || method.name.startsWith("<")) {
            return false;
        }
        boolean isPrivate = (method.access & ACC_PRIVATE) != 0;
        return switch (call.getOpcode()) {
            case INVOKESTATIC -> Instructions.isStatic(method);
            case INVOKEVIRTUAL -> !Instructions.isStatic(method) && !isPrivate;
            case INVOKESPECIAL -> !Instructions.isStatic(method) && isPrivate;
            default -> false;
        };
    }

    /** Returns whether a call is one of the library methods that the server supports. */
    public static boolean isLibrary(MethodInsnNode call) {
        String name = call.name + call.desc;
        return switch (call.getOpcode()) {
            case INVOKESTATIC -> isStaticLibrary(call.owner, name);
            case INVOKEVIRTUAL -> NUMBERS.contains(call.owner) && (name.equals("intValue()I") || name.equals("longValue()J"))
                || call.owner.equals(BOOLEAN) && name.equals("booleanValue()Z");
            case INVOKEINTERFACE -> isEntryCall(call.owner, name);
            default -> false;
        };
    }

    private static boolean isStaticLibrary(String owner, String name) {
        return switch (owner) {
            case "java/lang/Long" -> name.equals("valueOf(J)Ljava/lang/Long;");
            case "java/lang/Integer" -> name.equals("valueOf(I)Ljava/lang/Integer;");
            case BOOLEAN -> name.equals("valueOf(Z)Ljava/lang/Boolean;");
            case "java/lang/Math" -> Set.of("max(II)I", "min(II)I", "max(JJ)J", "min(JJ)J").contains(name);
            default -> false;
        };
    }

    private static boolean isEntryCall(String owner, String name) {
        boolean reads = name.equals("getKey()Ljava/lang/Object;") || name.equals("getValue()Ljava/lang/Object;");
        boolean writes = name.equals("setValue(Ljava/lang/Object;)V") || name.equals("exists()Z") || name.equals("remove()V");
        return owner.equals(ENTRY) && (reads || writes) || owner.equals(CACHE_ENTRY) && reads;
    }
}
