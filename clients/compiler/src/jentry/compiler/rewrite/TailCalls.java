package jentry.compiler.rewrite;

import java.util.Set;
import org.objectweb.asm.Opcodes;
import org.objectweb.asm.Type;
import org.objectweb.asm.tree.AbstractInsnNode;
import org.objectweb.asm.tree.ClassNode;
import org.objectweb.asm.tree.InsnList;
import org.objectweb.asm.tree.InsnNode;
import org.objectweb.asm.tree.JumpInsnNode;
import org.objectweb.asm.tree.LabelNode;
import org.objectweb.asm.tree.LineNumberNode;
import org.objectweb.asm.tree.MethodNode;
import org.objectweb.asm.tree.VarInsnNode;
import org.objectweb.asm.tree.analysis.Frame;
import jentry.compiler.profile.Instructions;

/**
 * Replaces a method's calls of itself whose result it returns at once by jumps to its start, with the arguments as the new values of its parameters.
 *
 * <p>The loop that this makes needs a bound like any other. Calls within try stay, since their handler isn't that of the method's start.
 */
public final class TailCalls implements Opcodes {
    private final ClassNode owner;

    private TailCalls(ClassNode owner) {
        this.owner = owner;
    }

    /** Replaces the calls of all methods. Returns how many there were. */
    public static int replace(ClassNode owner) {
        TailCalls calls = new TailCalls(owner);
        return owner.methods.stream().mapToInt(calls::replace).sum();
    }

    private int replace(MethodNode method) {
        boolean callsItself = false;
        for (AbstractInsnNode at : method.instructions) {
            callsItself |= Instructions.callee(owner, at) == method && isReturned(at);
        }
        if (!callsItself || !method.tryCatchBlocks.isEmpty()) {
            return 0;
        }
        Frame<Origin>[] frames = Origin.of(owner, method, new Origin.Reader());
        AbstractInsnNode[] all = method.instructions.toArray();
        LabelNode start = new LabelNode();
        int count = 0;
        for (int i = 0; i < all.length; i++) {
            if (Instructions.callee(owner, all[i]) == method && frames[i] != null && isReturned(all[i]) && isOfItself(method, frames[i])) {
                method.instructions.insertBefore(all[i], jump(method, start));
                method.instructions.remove(all[i]);
                count++;
            }
        }
        if (count > 0) {
            addStart(method, start);
            UnreachableCode.dropUnreached(method);
        }
        return count;
    }

    /** Returns whether the next instruction, behind jumps, returns what a call has pushed. */
    private static boolean isReturned(AbstractInsnNode call) {
        AbstractInsnNode next = Instructions.next(call);
        for (int jumps = 0; next instanceof JumpInsnNode jump && next.getOpcode() == GOTO && jumps < 64; jumps++) {
            next = Instructions.next(jump.label);
        }
        return next != null && next.getOpcode() >= IRETURN && next.getOpcode() <= RETURN;
    }

    /** Returns whether a call has nothing but its operands on the stack, and the same receiver as the method. */
    private static boolean isOfItself(MethodNode method, Frame<Origin> frame) {
        int arguments = Type.getArgumentTypes(method.desc).length;
        if (Instructions.isStatic(method)) {
            return frame.getStackSize() == arguments;
        }
        return frame.getStackSize() == arguments + 1 && frame.getStack(0).sources().equals(Set.of(new Origin.Parameter(0)));
    }

    private static InsnList jump(MethodNode method, LabelNode start) {
        InsnList code = new InsnList();
        Type[] types = Type.getArgumentTypes(method.desc);
        int local = (Type.getArgumentsAndReturnSizes(method.desc) >> 2) - (Instructions.isStatic(method) ? 1 : 0);
        for (int i = types.length - 1; i >= 0; i--) {
            local -= types[i].getSize();
            code.add(new VarInsnNode(types[i].getOpcode(ISTORE), local));
        }
        if (!Instructions.isStatic(method)) {
            code.add(new InsnNode(POP));
        }
        code.add(new JumpInsnNode(GOTO, start));
        return code;
    }

    /** Adds the label of the start, behind a jump: a loop has an entry that isn't its head. */
    private static void addStart(MethodNode method, LabelNode start) {
        InsnList code = new InsnList();
        code.add(new JumpInsnNode(GOTO, start));
        code.add(start);
        AbstractInsnNode first = method.instructions.getFirst();
        while (first != null && first.getOpcode() < 0 && !(first instanceof LineNumberNode)) {
            first = first.getNext();
        }
        if (first instanceof LineNumberNode) {
            method.instructions.insert(first, code);
        } else {
            method.instructions.insert(code);
        }
    }
}
