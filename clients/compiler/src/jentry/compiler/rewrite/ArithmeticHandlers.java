package jentry.compiler.rewrite;

import java.util.ArrayList;
import java.util.Collections;
import java.util.HashMap;
import java.util.List;
import java.util.Map;
import org.objectweb.asm.Opcodes;
import org.objectweb.asm.Type;
import org.objectweb.asm.tree.AbstractInsnNode;
import org.objectweb.asm.tree.ClassNode;
import org.objectweb.asm.tree.IincInsnNode;
import org.objectweb.asm.tree.InsnList;
import org.objectweb.asm.tree.InsnNode;
import org.objectweb.asm.tree.JumpInsnNode;
import org.objectweb.asm.tree.LabelNode;
import org.objectweb.asm.tree.LineNumberNode;
import org.objectweb.asm.tree.MethodNode;
import org.objectweb.asm.tree.TryCatchBlockNode;
import org.objectweb.asm.tree.VarInsnNode;
import org.objectweb.asm.tree.analysis.Analyzer;
import org.objectweb.asm.tree.analysis.AnalyzerException;
import org.objectweb.asm.tree.analysis.BasicInterpreter;
import org.objectweb.asm.tree.analysis.BasicValue;
import org.objectweb.asm.tree.analysis.Frame;
import jentry.compiler.profile.CallGraph;
import jentry.compiler.profile.Instructions;
import jentry.compiler.profile.ProblemException;
import jentry.compiler.profile.Throws;

/**
 * Replaces `catch (ArithmeticException e)` by a test before each division in the range, and by a jump for each throw of that exception.
 *
 * <p>A method that is called in the range and may divide by zero, or throw it, is inlined. The exception variable must be unused.
 */
final class ArithmeticHandlers implements Opcodes {
    private static final String CAUGHT = "java/lang/ArithmeticException";

    private final ClassNode owner;

    private ArithmeticHandlers(ClassNode owner) {
        this.owner = owner;
    }

    /** Replaces the handlers of all methods that catch nothing else. Returns how many there were. */
    static int replace(ClassNode owner) throws ProblemException {
        ArithmeticHandlers handlers = new ArithmeticHandlers(owner);
        List<MethodNode> methods = new ArrayList<>(CallGraph.of(owner));
        Collections.reverse(methods);
        int count = 0;
        for (MethodNode method : methods) {
            boolean isOnly = method.tryCatchBlocks.stream().allMatch(it -> CAUGHT.equals(it.type));
            if (!method.tryCatchBlocks.isEmpty() && isOnly) {
                count += method.tryCatchBlocks.size();
                handlers.refuseUses(method);
                handlers.inlineCalls(method);
                handlers.guard(method);
                handlers.jump(method);
                method.tryCatchBlocks.clear();
                UnreachableCode.dropUnreached(method);
            }
        }
        return count;
    }

    private void refuseUses(MethodNode method) throws ProblemException {
        Origin.Reader reader = new Origin.Reader();
        Origin.of(owner, method, reader);
        for (AbstractInsnNode at : method.instructions) {
            if (reader.usesOfExceptions().contains(at)) {
                throw new ProblemException(Instructions.problem(owner, method, at, "the caught exception is used", "leave it unused: it can only be caught"));
            }
        }
    }

    private static TryCatchBlockNode handlerOf(MethodNode method, AbstractInsnNode at) {
        int place = method.instructions.indexOf(at);
        for (TryCatchBlockNode block : method.tryCatchBlocks) {
            if (method.instructions.indexOf(block.start) < place && place < method.instructions.indexOf(block.end)) {
                return block;
            }
        }
        return null;
    }

    // ---- divisions

    private static boolean divides(AbstractInsnNode at) {
        int opcode = at.getOpcode();
        boolean isDivision = opcode == IDIV || opcode == LDIV || opcode == IREM || opcode == LREM;
        return isDivision && !(Instructions.pushed(at.getPrevious()) instanceof Number divisor && divisor.longValue() != 0);
    }

    /** Returns whether a method may end with an ArithmeticException. */
    private boolean mayThrow(MethodNode method) {
        if (!throwsOf(method).isEmpty()) {
            return true;
        }
        for (AbstractInsnNode at : method.instructions) {
            MethodNode callee = Instructions.callee(owner, at);
            if (divides(at) || callee != null && mayThrow(callee)) {
                return true;
            }
        }
        return false;
    }

    private List<Throws.Form> throwsOf(MethodNode method) {
        return Throws.accepted(owner, method).stream().filter(it -> it.type().equals(CAUGHT)).toList();
    }

    /** Replaces each throw in a range by a jump to the handler, with null in place of the exception. */
    private void jump(MethodNode method) {
        Frame<BasicValue>[] frames = frames(method);
        Map<Throws.Form, InsnList> jumps = new HashMap<>();
        for (Throws.Form form : throwsOf(method)) {
            AbstractInsnNode first = form.instructions().get(0);
            TryCatchBlockNode handler = handlerOf(method, first);
            Frame<BasicValue> frame = frames[method.instructions.indexOf(first)];
            if (handler != null && frame != null) {
                InsnList code = new InsnList();
                dropOperands(code, frame);
                code.add(new InsnNode(ACONST_NULL));
                code.add(new JumpInsnNode(GOTO, handler.handler));
                jumps.put(form, code);
            }
        }
        jumps.forEach((form, code) -> {
            method.instructions.insertBefore(form.instructions().get(0), code);
            form.instructions().forEach(method.instructions::remove);
        });
    }

    private static void dropOperands(InsnList code, Frame<BasicValue> frame) {
        for (int operand = frame.getStackSize() - 1; operand >= 0; operand--) {
            code.add(Instructions.pop(frame.getStack(operand).getSize()));
        }
    }

    private void guard(MethodNode method) {
        Frame<BasicValue>[] frames = frames(method);
        AbstractInsnNode[] all = method.instructions.toArray();
        Map<AbstractInsnNode, InsnList> guards = new HashMap<>();
        for (int i = 0; i < all.length; i++) {
            TryCatchBlockNode handler = divides(all[i]) && frames[i] != null ? handlerOf(method, all[i]) : null;
            if (handler != null) {
                guards.put(all[i], guard(frames[i], handler.handler, all[i].getOpcode() == LDIV || all[i].getOpcode() == LREM));
            }
        }
        guards.forEach(method.instructions::insertBefore);
        method.maxStack += 4;
    }

    private Frame<BasicValue>[] frames(MethodNode method) {
        try {
            return new Analyzer<>(new BasicInterpreter()).analyze(owner.name, method);
        } catch (AnalyzerException e) {
            throw new IllegalStateException("the code of " + method.name + " isn't well formed", e);
        }
    }

    /** Creates the test: if the divisor is zero, all operands are dropped and null is pushed in place of the exception. */
    private static InsnList guard(Frame<BasicValue> frame, LabelNode handler, boolean isLong) {
        InsnList code = new InsnList();
        LabelNode divides = new LabelNode();
        code.add(new InsnNode(isLong ? DUP2 : DUP));
        if (isLong) {
            code.add(new InsnNode(LCONST_0));
            code.add(new InsnNode(LCMP));
        }
        code.add(new JumpInsnNode(IFNE, divides));
        dropOperands(code, frame);
        code.add(new InsnNode(ACONST_NULL));
        code.add(new JumpInsnNode(GOTO, handler));
        code.add(divides);
        return code;
    }

    // ---- calls

    private void inlineCalls(MethodNode method) throws ProblemException {
        for (boolean changed = true; changed;) {
            changed = false;
            for (AbstractInsnNode at : method.instructions.toArray()) {
                MethodNode callee = Instructions.callee(owner, at);
                if (callee != null && handlerOf(method, at) != null && mayThrow(callee)) {
                    inline(method, at, callee);
                    changed = true;
                }
            }
        }
    }

    private void inline(MethodNode method, AbstractInsnNode call, MethodNode callee) throws ProblemException {
        int count = Type.getArgumentTypes(callee.desc).length;
        boolean isStatic = Instructions.isStatic(callee);
        if (!isStatic && !new ValueSources(owner).origin(method, call, count).sources().equals(java.util.Set.of(new Origin.Parameter(0)))) {
            throw new ProblemException(Instructions.problem(owner, method, call, "a call of another object's method within try", "call it outside"));
        } else if (!callee.tryCatchBlocks.isEmpty()) {
            throw new ProblemException(Instructions.problem(owner, method, call, "a call within try of a method that catches", "call it outside"));
        }
        InsnList code = new InsnList();
        storeArguments(code, callee, method.maxLocals);
        copyBody(code, callee, method.maxLocals);
        method.maxLocals += callee.maxLocals;
        method.maxStack += callee.maxStack;
        method.instructions.insertBefore(call, code);
        method.instructions.remove(call);
    }

    private static void storeArguments(InsnList code, MethodNode callee, int offset) {
        Type[] types = Type.getArgumentTypes(callee.desc);
        int local = Type.getArgumentsAndReturnSizes(callee.desc) >> 2;
        if (Instructions.isStatic(callee)) {
            local--;
        }
        for (int i = types.length - 1; i >= 0; i--) {
            local -= types[i].getSize();
            code.add(new VarInsnNode(types[i].getOpcode(ISTORE), offset + local));
        }
        if (!Instructions.isStatic(callee)) {
            code.add(new VarInsnNode(ASTORE, offset));
        }
    }

    private static void copyBody(InsnList code, MethodNode callee, int offset) {
        Map<LabelNode, LabelNode> labels = new HashMap<>();
        for (AbstractInsnNode at : callee.instructions) {
            if (at instanceof LabelNode label) {
                labels.put(label, new LabelNode());
            }
        }
        LabelNode end = new LabelNode();
        for (AbstractInsnNode at : callee.instructions) {
            int opcode = at.getOpcode();
            if (opcode >= IRETURN && opcode <= RETURN) {
                code.add(new JumpInsnNode(GOTO, end));
            } else if (!(at instanceof LineNumberNode) && !(at instanceof org.objectweb.asm.tree.FrameNode)) {
                AbstractInsnNode copy = at.clone(labels);
                if (copy instanceof VarInsnNode it) {
                    it.var += offset;
                } else if (copy instanceof IincInsnNode it) {
                    it.var += offset;
                }
                code.add(copy);
            }
        }
        code.add(end);
    }
}
