package jentry.compiler.profile;

import java.util.ArrayList;
import java.util.Collections;
import java.util.IdentityHashMap;
import java.util.List;
import java.util.Map;
import java.util.Set;
import org.objectweb.asm.tree.AbstractInsnNode;
import org.objectweb.asm.tree.ClassNode;
import org.objectweb.asm.tree.MethodNode;

/** Finds the methods of a class that `process` reaches. */
public final class CallGraph {
    private final ClassNode owner;
    private final Map<MethodNode, Boolean> ended = new IdentityHashMap<>();
    private final List<MethodNode> calleesFirst = new ArrayList<>();

    private CallGraph(ClassNode owner) {
        this.owner = owner;
    }

    /**
     * Returns the methods that `process` reaches, each before those that it calls.
     *
     * @throws ProblemException if a method calls itself, directly or through others, or if there is no `process`
     */
    public static List<MethodNode> of(ClassNode owner) throws ProblemException {
        MethodNode process = Instructions.method(owner, "process", Members.PROCESS);
        if (process == null) {
            throw new ProblemException(Instructions.problem(owner, "it has no public method process(MutableEntry, Object...)",
                "write process in the class itself"));
        }
        CallGraph graph = new CallGraph(owner);
        graph.visit(process);
        Collections.reverse(graph.calleesFirst);
        return graph.calleesFirst;
    }

    /**
     * Checks all methods of a class for recursion, used or not.
     *
     * @throws ProblemException if there is recursion
     */
    static void check(ClassNode owner) throws ProblemException {
        CallGraph graph = new CallGraph(owner);
        for (MethodNode method : owner.methods) {
            if (!graph.ended.containsKey(method)) {
                graph.visit(method);
            }
        }
    }

    /** Removes the methods that `process` doesn't reach. */
    public static void dropUnused(ClassNode owner) throws ProblemException {
        Set<MethodNode> used = Collections.newSetFromMap(new IdentityHashMap<>());
        used.addAll(of(owner));
        owner.methods.removeIf(it -> !it.name.startsWith("<") && !used.contains(it));
    }

    private void visit(MethodNode method) throws ProblemException {
        ended.put(method, false);
        for (AbstractInsnNode at : method.instructions) {
            MethodNode callee = Instructions.callee(owner, at);
            if (callee == null) {
                continue;
            }
            Boolean known = ended.get(callee);
            if (known == null) {
                visit(callee);
            } else if (!known) {
                throw new ProblemException(Instructions.problem(owner, method, at, "recursion by a call of " + callee.name,
                    "write a loop that a counter ends, or a method for each level"));
            }
        }
        ended.put(method, true);
        calleesFirst.add(method);
    }
}
