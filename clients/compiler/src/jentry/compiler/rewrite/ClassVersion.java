package jentry.compiler.rewrite;

import java.util.HashSet;
import java.util.Set;
import org.objectweb.asm.Opcodes;
import org.objectweb.asm.tree.AbstractInsnNode;
import org.objectweb.asm.tree.ClassNode;
import org.objectweb.asm.tree.MethodInsnNode;
import org.objectweb.asm.tree.MethodNode;

/** Converts a class file of a newer Java to Java 8, if only its version, its nest and the calls of private methods are newer. */
final class ClassVersion implements Opcodes {
    private ClassVersion() { }

    static void lower(ClassNode owner) {
        owner.version = V1_8;
        owner.nestHostClass = null;
        owner.nestMembers = null;
        owner.permittedSubclasses = null;
        Set<String> privates = new HashSet<>();
        for (MethodNode method : owner.methods) {
            if ((method.access & (ACC_PRIVATE | ACC_STATIC)) == ACC_PRIVATE) {
                privates.add(method.name + method.desc);
            }
        }
        for (MethodNode method : owner.methods) {
            for (AbstractInsnNode at : method.instructions) {
                boolean isVirtual = at.getOpcode() == INVOKEVIRTUAL;
                if (isVirtual && at instanceof MethodInsnNode call && call.owner.equals(owner.name) && privates.contains(call.name + call.desc)) {
                    call.setOpcode(INVOKESPECIAL);
                }
            }
        }
    }
}
