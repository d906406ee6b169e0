package jentry.compiler.link;

import java.util.HashSet;
import java.util.Set;
import org.objectweb.asm.Handle;
import org.objectweb.asm.Opcodes;
import org.objectweb.asm.tree.AbstractInsnNode;
import org.objectweb.asm.tree.ClassNode;
import org.objectweb.asm.tree.FieldInsnNode;
import org.objectweb.asm.tree.InvokeDynamicInsnNode;
import org.objectweb.asm.tree.MethodInsnNode;
import org.objectweb.asm.tree.MethodNode;
import org.objectweb.asm.tree.TypeInsnNode;
import jentry.compiler.ProgramClasses;
import jentry.compiler.profile.Instructions;

/**
 * Tells whether initialisers can be run in the compiler's JVM: they compute the same at each run, and change nothing but fields of classes that they
 * initialise and objects that they make.
 */
final class Effects implements Opcodes {
    private static final Set<String> PACKAGES = Set.of("java/time/", "java/math/");
    private static final Set<String> CLASSES = Set.of("java/lang/Object", "java/lang/Math", "java/lang/StrictMath", "java/lang/Long", "java/lang/Integer",
        "java/lang/Short", "java/lang/Byte", "java/lang/Character", "java/lang/Boolean", "java/lang/Double", "java/lang/Float", "java/lang/Number",
        "java/lang/String", "java/lang/StringBuilder", "java/lang/Enum", "java/lang/Record", "java/util/Arrays", "java/util/Objects", "java/util/List",
        "java/util/Map", "java/util/Set", "java/util/ArrayList", "java/util/HashMap", "java/util/EnumMap", "java/util/BitSet", "java/util/Collections",
        "java/util/concurrent/TimeUnit", "java/util/stream/LongStream", "java/util/stream/IntStream", "java/lang/IllegalArgumentException",
        "java/lang/NoSuchFieldError", "java/lang/AssertionError");
    private static final Set<String> NOT = Set.of("now", "random", "hashCode", "identityHashCode", "sleep", "timedJoin", "timedWait", "systemDefault",
        "systemDefaultZone", "getBoolean", "getLong", "getInteger", "parallel", "forEach", "getClass", "wait", "notify", "notifyAll", "shuffle");

    private final Classes classes;
    private final Set<MethodNode> seen = new HashSet<>();
    private final boolean isMaking;

    private Effects(Classes classes, boolean isMaking) {
        this.classes = classes;
        this.isMaking = isMaking;
    }

    /** Returns whether a class can be initialised. */
    static boolean isFree(Classes classes, String owner) {
        return new Effects(classes, false).isInitialised(owner);
    }

    /** Returns whether an instance can be made by the constructor without parameters, and each holds the same. */
    static boolean isFreeToMake(Classes classes, String owner) {
        return isFree(classes, owner) && new Effects(classes, true).isCalled(owner, "<init>", "()V");
    }

    private boolean isInitialised(String name) {
        if (ProgramClasses.isOfPlatform(name)) {
            return true;
        }
        ClassNode node = classes.get(name);
        if (node == null) {
            return false;
        } else if (isMaking) {
            return isFree(classes, name);
        }
        MethodNode initialiser = Instructions.method(node, "<clinit>", "()V");
        return (node.superName == null || isInitialised(node.superName)) && node.interfaces.stream().allMatch(this::isInitialised)
            && (initialiser == null || isFree(initialiser));
    }

    private boolean isCalled(String owner, String name, String descriptor) {
        if (ProgramClasses.isOfPlatform(owner)) {
            boolean isKnown = CLASSES.contains(owner) || PACKAGES.stream().anyMatch(owner::startsWith) || owner.startsWith("[");
            return isKnown && !NOT.contains(name) || name.equals("desiredAssertionStatus");
        }
        for (ClassNode at = classes.get(owner); at != null; at = at.superName == null ? null : classes.get(at.superName)) {
            MethodNode found = Instructions.method(at, name, descriptor);
            if (found != null) {
                return isInitialised(owner) && isFree(found);
            } else if (at.superName != null && ProgramClasses.isOfPlatform(at.superName)) {
                return isCalled(at.superName, name, descriptor);
            }
        }
        return false;
    }

    private boolean isFree(MethodNode method) {
        if (!seen.add(method)) {
            return true;
        } else if ((method.access & (ACC_ABSTRACT | ACC_NATIVE)) != 0) {
            return false;
        }
        for (AbstractInsnNode at : method.instructions) {
            if (!isFree(method, at)) {
                return false;
            }
        }
        return true;
    }

    /** Returns whether a static field is the same each time it is read. */
    private boolean isConstant(FieldInsnNode at) {
        if (ProgramClasses.isOfPlatform(at.owner)) {
            return true;
        }
        Classes.Field field = classes.field(at.owner, at.name, at.desc);
        boolean isImmutable = at.desc.length() == 1 || at.desc.startsWith("Ljava/lang/") || at.desc.startsWith("Ljava/time/")
            || classes.isEnum(org.objectweb.asm.Type.getType(at.desc).getInternalName());
        boolean isFinal = field != null && (field.node().access & ACC_FINAL) != 0;
        return isFinal && (isImmutable || !isMaking);
    }

    private boolean isFree(MethodNode method, AbstractInsnNode at) {
        if (at instanceof MethodInsnNode call) {
            return isCalled(call.owner, call.name, call.desc);
        } else if (at instanceof FieldInsnNode field) {
            boolean isInitialiser = method.name.equals("<clinit>");
            return switch (at.getOpcode()) {
                case PUTSTATIC -> isInitialiser;
                case PUTFIELD -> method.name.equals("<init>");
                case GETFIELD -> true;
                default -> !field.owner.equals("java/lang/System") && isInitialised(field.owner) && (isInitialiser || isConstant(field));
            };
        } else if (at instanceof InvokeDynamicInsnNode it) {
            return it.bsm.getName().startsWith("makeConcat") || it.bsmArgs.length > 1 && it.bsmArgs[1] instanceof Handle body
                && isCalled(body.getOwner(), body.getName(), body.getDesc());
        } else if (at instanceof TypeInsnNode made && at.getOpcode() == NEW) {
            return isInitialised(made.desc);
        }
        return at.getOpcode() != MONITORENTER;
    }
}
