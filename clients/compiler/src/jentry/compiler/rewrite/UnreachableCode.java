package jentry.compiler.rewrite;

import java.util.Set;
import org.objectweb.asm.Opcodes;
import org.objectweb.asm.tree.AbstractInsnNode;
import org.objectweb.asm.tree.ClassNode;
import org.objectweb.asm.tree.JumpInsnNode;
import org.objectweb.asm.tree.LabelNode;
import org.objectweb.asm.tree.MethodNode;
import jentry.compiler.profile.Instructions;
import jentry.compiler.unroll.Arithmetic;
import jentry.compiler.unroll.ControlFlowGraph;

/** Removes tests of constants, and unreachable code such as disabled assertions. */
final class UnreachableCode implements Opcodes {
    private UnreachableCode() { }

    static void drop(ClassNode owner) {
        for (MethodNode method : owner.methods) {
            if (method.tryCatchBlocks.isEmpty() && method.instructions.size() > 0 && foldTests(method)) {
                dropUnreached(method);
            }
        }
    }

    /** Removes the unreachable code of a method without exception handlers. */
    static void dropUnreached(MethodNode method) {
        ControlFlowGraph graph = new ControlFlowGraph(method);
        for (AbstractInsnNode at : method.instructions.toArray()) {
            if (!graph.isReached(at)) {
                method.instructions.remove(at);
            }
        }
    }

    private static boolean foldTests(MethodNode method) {
        Set<LabelNode> targets = Instructions.targets(method.instructions);
        boolean folds = false;
        for (AbstractInsnNode at : method.instructions.toArray()) {
            int opcode = at.getOpcode();
            AbstractInsnNode before = Instructions.previous(at, targets);
            if (opcode >= IFEQ && opcode <= IFLE && Instructions.pushed(before) instanceof Integer constant) {
                if (Arithmetic.holds(opcode - IFEQ, constant, 0)) {
                    method.instructions.set(at, new JumpInsnNode(GOTO, ((JumpInsnNode) at).label));
                } else {
                    method.instructions.remove(at);
                }
                method.instructions.remove(before);
                folds = true;
            }
        }
        return folds;
    }
}
