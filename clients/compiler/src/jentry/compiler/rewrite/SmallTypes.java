package jentry.compiler.rewrite;

import java.util.HashMap;
import java.util.HashSet;
import java.util.Map;
import java.util.Set;
import org.objectweb.asm.Opcodes;
import org.objectweb.asm.Type;
import org.objectweb.asm.tree.AbstractInsnNode;
import org.objectweb.asm.tree.ClassNode;
import org.objectweb.asm.tree.FieldInsnNode;
import org.objectweb.asm.tree.FieldNode;
import org.objectweb.asm.tree.InsnNode;
import org.objectweb.asm.tree.IntInsnNode;
import org.objectweb.asm.tree.MethodInsnNode;
import org.objectweb.asm.tree.MethodNode;
import org.objectweb.asm.tree.TypeInsnNode;
import jentry.compiler.profile.Instructions;
import jentry.compiler.profile.ProblemException;

/**
 * Replaces `byte`, `short` and `char` in descriptors by `int`, their arrays and those of `boolean` by arrays of `int`, and byteValue and shortValue of
 * boxes by intValue and a cast.
 *
 * <p>The values stay the same: javac narrows arguments, and this pass narrows what is stored into such an array.
 */
final class SmallTypes implements Opcodes {
    private static final Set<String> BOXES = Set.of("java/lang/Long", "java/lang/Integer", "java/lang/Number");
    private static final Map<String, Integer> NARROWED = Map.of("byteValue()B", I2B, "shortValue()S", I2S);

    private final ClassNode owner;

    private SmallTypes(ClassNode owner) {
        this.owner = owner;
    }

    static void widen(ClassNode owner) throws ProblemException {
        SmallTypes types = new SmallTypes(owner);
        boolean hasArrays = false;
        for (MethodNode method : owner.methods) {
            for (AbstractInsnNode at : method.instructions) {
                hasArrays |= at.getOpcode() == NEWARRAY && isSmall(((IntInsnNode) at).operand);
            }
        }
        if (hasArrays) {
            types.refuseTests();
        }
        types.widenMethods();
        owner.methods.forEach(types::widenCode);
        for (FieldNode field : owner.fields) {
            field.desc = widened(Type.getType(field.desc)).getDescriptor();
        }
    }

    private static boolean isSmall(int kind) {
        return kind == T_BOOLEAN || kind == T_BYTE || kind == T_SHORT || kind == T_CHAR;
    }

    /** Refuses instanceof int[] and casts to it, which would also succeed for the replaced arrays. */
    private void refuseTests() throws ProblemException {
        for (MethodNode method : owner.methods) {
            for (AbstractInsnNode at : method.instructions) {
                boolean tests = at.getOpcode() == INSTANCEOF || at.getOpcode() == CHECKCAST;
                if (tests && ((TypeInsnNode) at).desc.equals("[I")) {
                    throw new ProblemException(Instructions.problem(owner, method, at, "a test for int[] beside arrays of a smaller type",
                        "use int[] alone"));
                }
            }
        }
    }

    private static Type widened(Type type) {
        return switch (type.getSort()) {
            case Type.BYTE, Type.SHORT, Type.CHAR -> Type.INT_TYPE;
            case Type.ARRAY -> Set.of("[Z", "[B", "[S", "[C").contains(type.getDescriptor()) ? Type.getType("[I") : type;
            default -> type;
        };
    }

    private static String widened(String descriptor) {
        Type[] types = Type.getArgumentTypes(descriptor);
        for (int i = 0; i < types.length; i++) {
            types[i] = widened(types[i]);
        }
        return Type.getMethodDescriptor(widened(Type.getReturnType(descriptor)), types);
    }

    private void widenMethods() {
        Set<String> taken = new HashSet<>();
        owner.methods.forEach(it -> taken.add(it.name + it.desc));
        Map<String, MethodNode> renamed = new HashMap<>();
        for (MethodNode method : owner.methods) {
            String descriptor = widened(method.desc);
            if (!descriptor.equals(method.desc) && !method.name.startsWith("<")) {
                renamed.put(method.name + method.desc, method);
                while (!taken.add(method.name + descriptor)) {
                    method.name += "_";
                }
                method.desc = descriptor;
            }
        }
        for (MethodNode method : owner.methods) {
            for (AbstractInsnNode at : method.instructions) {
                if (at instanceof MethodInsnNode call && call.owner.equals(owner.name) && renamed.containsKey(call.name + call.desc)) {
                    MethodNode callee = renamed.get(call.name + call.desc);
                    call.name = callee.name;
                    call.desc = callee.desc;
                }
            }
        }
    }

    private void widenCode(MethodNode method) {
        for (AbstractInsnNode at : method.instructions.toArray()) {
            if (at instanceof FieldInsnNode field && field.owner.equals(owner.name)) {
                field.desc = widened(Type.getType(field.desc)).getDescriptor();
            } else if (at instanceof IntInsnNode made && at.getOpcode() == NEWARRAY && isSmall(made.operand)) {
                made.operand = T_INT;
            } else if (at.getOpcode() == BALOAD || at.getOpcode() == CALOAD || at.getOpcode() == SALOAD) {
                method.instructions.set(at, new InsnNode(IALOAD));
            } else if (at.getOpcode() == BASTORE || at.getOpcode() == CASTORE || at.getOpcode() == SASTORE) {
                int narrows = at.getOpcode() == BASTORE ? I2B : at.getOpcode() == CASTORE ? I2C : I2S;
                method.instructions.insertBefore(at, new InsnNode(narrows));
                method.instructions.set(at, new InsnNode(IASTORE));
            } else if (at instanceof MethodInsnNode call && at.getOpcode() == INVOKEVIRTUAL && BOXES.contains(call.owner) && NARROWED.containsKey(call.name + call.desc)) {
                method.instructions.insert(at, new InsnNode(NARROWED.get(call.name + call.desc)));
                method.instructions.set(at, new MethodInsnNode(INVOKEVIRTUAL, call.owner, "intValue", "()I", false));
            }
        }
    }
}
