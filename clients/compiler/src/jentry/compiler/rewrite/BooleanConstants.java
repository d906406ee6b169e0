package jentry.compiler.rewrite;

import org.objectweb.asm.Opcodes;
import org.objectweb.asm.tree.AbstractInsnNode;
import org.objectweb.asm.tree.ClassNode;
import org.objectweb.asm.tree.FieldInsnNode;
import org.objectweb.asm.tree.InsnNode;
import org.objectweb.asm.tree.MethodInsnNode;
import org.objectweb.asm.tree.MethodNode;
import jentry.compiler.profile.Members;

/** Replaces Boolean.TRUE and Boolean.FALSE by boxed constants, which the other passes know the values of. */
final class BooleanConstants implements Opcodes {
    private BooleanConstants() { }

    static void replace(ClassNode owner) {
        for (MethodNode method : owner.methods) {
            for (AbstractInsnNode at : method.instructions.toArray()) {
                if (at instanceof FieldInsnNode field && at.getOpcode() == GETSTATIC && Members.isConstant(field)) {
                    method.instructions.insertBefore(at, new InsnNode(field.name.equals("TRUE") ? ICONST_1 : ICONST_0));
                    method.instructions.set(at, new MethodInsnNode(INVOKESTATIC, Members.BOOLEAN, "valueOf", "(Z)Ljava/lang/Boolean;", false));
                }
            }
        }
    }
}
