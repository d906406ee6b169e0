package jentry.compiler.rewrite;

import java.util.ArrayList;
import java.util.HashSet;
import java.util.IdentityHashMap;
import java.util.List;
import java.util.Map;
import java.util.Set;
import java.util.function.Predicate;
import org.objectweb.asm.Opcodes;
import org.objectweb.asm.Type;
import org.objectweb.asm.tree.AbstractInsnNode;
import org.objectweb.asm.tree.ClassNode;
import org.objectweb.asm.tree.MethodNode;
import org.objectweb.asm.tree.analysis.Frame;
import jentry.compiler.profile.Instructions;

/** Finds the origins of the operands of instructions, including calls among the methods of a class. */
public final class ValueSources implements Opcodes {
    private record Visit(MethodNode method, Object source) { }

    private final ClassNode owner;
    private final Map<MethodNode, Frame<Origin>[]> frames = new IdentityHashMap<>();

    /** Analyses a class. */
    public ValueSources(ClassNode owner) {
        this.owner = owner;
    }

    /** Returns the origin, within its method, of the operand {@code below} places below the top; null if the instruction is unreachable. */
    Origin origin(MethodNode method, AbstractInsnNode at, int below) {
        Frame<Origin> frame = framesOf(method)[method.instructions.indexOf(at)];
        return frame == null ? null : frame.getStack(frame.getStackSize() - 1 - below);
    }

    private Frame<Origin>[] framesOf(MethodNode method) {
        return frames.computeIfAbsent(method, it -> Origin.of(owner, it, new Origin.Reader()));
    }

    /**
     * Returns the instructions of the method that produced an operand. Returns null if it may come from elsewhere, such as a parameter, or if the
     * instruction is unreachable.
     */
    public Set<AbstractInsnNode> within(MethodNode method, AbstractInsnNode at, int below) {
        Origin origin = origin(method, at, below);
        Set<AbstractInsnNode> made = new HashSet<>();
        for (Object source : origin == null ? Set.of(new Object()) : origin.sources()) {
            if (!(source instanceof AbstractInsnNode instruction)) {
                return null;
            }
            made.add(instruction);
        }
        return made;
    }

    /**
     * Returns the instructions that may have produced an operand, through calls of own methods and parameters. Values from outside the class are left
     * out.
     */
    public Set<AbstractInsnNode> of(MethodNode method, AbstractInsnNode at, int below) {
        Set<AbstractInsnNode> made = new HashSet<>();
        for (Object source : all(method, at, below)) {
            if (source instanceof AbstractInsnNode instruction) {
                made.add(instruction);
            }
        }
        return made;
    }

    /** Returns whether only such instructions produce an operand, through calls of own methods and parameters. */
    public boolean isMadeBy(MethodNode method, AbstractInsnNode at, int below, Predicate<AbstractInsnNode> test) {
        Set<Object> all = all(method, at, below);
        return !all.isEmpty() && all.stream().allMatch(it -> it instanceof AbstractInsnNode made && test.test(made));
    }

    /**
     * Returns the instructions that may have produced an operand, and its other sources: parameters that are passed from outside, and caught
     * exceptions.
     */
    private Set<Object> all(MethodNode method, AbstractInsnNode at, int below) {
        Set<Object> found = new HashSet<>();
        follow(method, origin(method, at, below), found, new HashSet<>());
        return found;
    }

    private void follow(MethodNode method, Origin origin, Set<Object> found, Set<Visit> visited) {
        if (origin == null) {
            return;
        }
        for (Object source : origin.sources()) {
            if (!visited.add(new Visit(method, source))) {
                continue;
            } else if (source instanceof Origin.Parameter parameter) {
                followParameter(method, parameter, found, visited);
            } else {
                MethodNode callee = source instanceof AbstractInsnNode at ? Instructions.callee(owner, at) : null;
                if (callee == null) {
                    found.add(source);
                } else {
                    followResults(callee, found, visited);
                }
            }
        }
    }

    private void followParameter(MethodNode method, Origin.Parameter parameter, Set<Object> found, Set<Visit> visited) {
        int count = Type.getArgumentTypes(method.desc).length + (Instructions.isStatic(method) ? 0 : 1);
        boolean isHandedOver = false;
        for (MethodNode caller : List.copyOf(owner.methods)) {
            for (AbstractInsnNode at : callsOf(caller, method)) {
                isHandedOver = true;
                follow(caller, origin(caller, at, count - 1 - parameter.number()), found, visited);
            }
        }
        if (!isHandedOver) {
            found.add(parameter);
        }
    }

    private List<AbstractInsnNode> callsOf(MethodNode caller, MethodNode callee) {
        List<AbstractInsnNode> calls = new ArrayList<>();
        for (AbstractInsnNode at : caller.instructions) {
            if (Instructions.callee(owner, at) == callee) {
                calls.add(at);
            }
        }
        return calls;
    }

    private void followResults(MethodNode callee, Set<Object> found, Set<Visit> visited) {
        for (AbstractInsnNode at : callee.instructions) {
            if (at.getOpcode() == ARETURN) {
                follow(callee, origin(callee, at, 0), found, visited);
            }
        }
    }
}
