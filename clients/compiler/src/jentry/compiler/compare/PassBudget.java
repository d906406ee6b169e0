package jentry.compiler.compare;

import java.lang.reflect.Field;
import org.objectweb.asm.ClassReader;
import org.objectweb.asm.ClassWriter;
import org.objectweb.asm.Opcodes;
import org.objectweb.asm.tree.AbstractInsnNode;
import org.objectweb.asm.tree.ClassNode;
import org.objectweb.asm.tree.FieldInsnNode;
import org.objectweb.asm.tree.FieldNode;
import org.objectweb.asm.tree.InsnList;
import org.objectweb.asm.tree.InsnNode;
import org.objectweb.asm.tree.LabelNode;
import org.objectweb.asm.tree.MethodInsnNode;
import org.objectweb.asm.tree.MethodNode;
import jentry.compiler.profile.Instructions;

/**
 * Ends runs of a class on this JVM that make too many passes of loops: a loop that the compiler computes at once may have 2^63 of them, and one that goes
 * round a ring may never end.
 *
 * <p>Each branch back counts a static field down by Math.subtractExact, which throws when the lowest number is reached.
 */
final class PassBudget implements Opcodes {
    private static final String FIELD = "jentry$passes";
    private static final long MOST = 300_000;

    private final Field passes;

    /**
     * Creates the budget of a class.
     *
     * @param type a class whose class file {@link #limited} has made
     * @throws ReflectiveOperationException if it hasn't
     */
    PassBudget(Class<?> type) throws ReflectiveOperationException {
        passes = type.getDeclaredField(FIELD);
        passes.setAccessible(true);
    }

    /** Allows as many passes as every run may have. */
    void renew() throws ReflectiveOperationException {
        passes.setLong(null, Long.MIN_VALUE + MOST);
    }

    /** Returns whether a run has made too many. */
    boolean isSpent() throws ReflectiveOperationException {
        return passes.getLong(null) == Long.MIN_VALUE;
    }

    /** Returns the class file of a class that counts its passes. */
    static byte[] limited(byte[] classFile) {
        ClassNode node = new ClassNode();
        new ClassReader(classFile).accept(node, 0);
        boolean isInterface = (node.access & ACC_INTERFACE) != 0;
        node.fields.add(new FieldNode(ACC_PUBLIC | ACC_STATIC | (isInterface ? ACC_FINAL : 0), FIELD, "J", null, null));
        if (!isInterface) {
            node.methods.forEach(method -> limit(node, method));
        }
        ClassWriter writer = new ClassWriter(ClassWriter.COMPUTE_MAXS);
        node.accept(writer);
        return writer.toByteArray();
    }

    private static void limit(ClassNode node, MethodNode method) {
        for (AbstractInsnNode at : method.instructions.toArray()) {
            int place = method.instructions.indexOf(at);
            if (Instructions.targets(at).stream().anyMatch((LabelNode it) -> method.instructions.indexOf(it) < place)) {
                InsnList code = new InsnList();
                code.add(new FieldInsnNode(GETSTATIC, node.name, FIELD, "J"));
                code.add(new InsnNode(LCONST_1));
                code.add(new MethodInsnNode(INVOKESTATIC, "java/lang/Math", "subtractExact", "(JJ)J", false));
                code.add(new FieldInsnNode(PUTSTATIC, node.name, FIELD, "J"));
                method.instructions.insertBefore(at, code);
            }
        }
    }
}
