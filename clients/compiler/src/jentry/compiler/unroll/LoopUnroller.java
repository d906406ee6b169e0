package jentry.compiler.unroll;

import java.util.ArrayList;
import java.util.Collections;
import java.util.HashMap;
import java.util.IdentityHashMap;
import java.util.List;
import java.util.Map;
import java.util.Set;
import org.objectweb.asm.Opcodes;
import org.objectweb.asm.Type;
import org.objectweb.asm.tree.AbstractInsnNode;
import org.objectweb.asm.tree.ClassNode;
import org.objectweb.asm.tree.MethodNode;
import org.objectweb.asm.tree.analysis.Frame;
import jentry.compiler.profile.CallGraph;
import jentry.compiler.profile.Instructions;
import jentry.compiler.profile.Members;
import jentry.compiler.profile.Problem;
import jentry.compiler.profile.ProblemException;
import jentry.compiler.profile.Throws;

/**
 * Unrolls the counted loops in all methods of a class.
 *
 * <p>Callers come before the methods they call, starting with `process`, so that what all calls of a method pass to it is known.
 */
public final class LoopUnroller implements Opcodes {
    /** The end of the note of a loop that is limited by other means than a counter. */
    public static final String GOES_ON = "a run that would go on throws ArithmeticException";

    private final ClassNode owner;
    private final int hidden;
    private final Map<MethodNode, UnrolledGraph> graphs = new IdentityHashMap<>();
    private final List<MethodNode> methods;
    private final ConstantPropagation propagation;
    private final Map<MethodNode, AbstractValue[]> given = new IdentityHashMap<>();

    /**
     * Unrolls the loops without changing the class yet.
     *
     * @param owner a class whose instructions are accepted, except for loops
     * @param hidden the number of arguments that are always passed
     * @throws ProblemException if no counter ends a loop, or it has too many iterations
     */
    public LoopUnroller(ClassNode owner, int hidden) throws ProblemException {
        this.owner = owner;
        this.hidden = hidden;
        methods = CallGraph.of(owner);
        propagation = new ConstantPropagation(owner.name, ReturnedArrays.of(owner));
        List<Problem> problems = new ArrayList<>();
        Set<MethodNode> unknown = Collections.newSetFromMap(new IdentityHashMap<>());
        for (MethodNode method : methods) {
            try {
                if (!unknown.contains(method)) {
                    UnrolledGraph graph = unrolled(method);
                    graphs.put(method, graph);
                    graph.order().forEach(this::addGiven);
                }
            } catch (UnboundedLoopException e) {
                e.lines().forEach((line, reason) -> problems.add(new Problem(Instructions.nameOf(owner.name), method.name, line, reason.what(), reason.remedy())));
                unknown.add(method);
            }
            if (unknown.contains(method)) {
                // what it hands over to others isn't known, so their loops can't be judged
                method.instructions.forEach(at -> unknown.add(Instructions.callee(owner, at)));
            }
        }
        if (!problems.isEmpty()) {
            throw new ProblemException(problems);
        }
    }

    /** Unrolls a method by its counters; where these don't end its loops, also by the limits of those that shrink a value. */
    private UnrolledGraph unrolled(MethodNode method) throws UnboundedLoopException {
        ControlFlowGraph graph = new ControlFlowGraph(method);
        Frame<LocalReads.Reads>[] reads = graph.loops().isEmpty() ? null : LocalReads.of(method);
        try {
            return unrolled(graph, reads, List.of());
        } catch (UnboundedLoopException e) {
            List<PassLimit> limits = graph.loops().stream().flatMap(it -> PassLimit.of(graph, it).stream()).toList();
            if (limits.isEmpty()) {
                throw e;
            }
            return unrolledByLimits(graph, reads, limits);
        }
    }

    private UnrolledGraph unrolledByLimits(ControlFlowGraph graph, Frame<LocalReads.Reads>[] reads, List<PassLimit> limits) throws UnboundedLoopException {
        try {
            return unrolled(graph, reads, limits);
        } catch (UnboundedLoopException why) {
            try {
                return new UnrolledGraph(new LoopCounters(graph, LoopCounters.Choice.LIMITS_ALONE, reads, limits), propagation,
                    given.get(graph.method()), hidden);
            } catch (UnboundedLoopException e) {
                throw e.isTooLong() ? why : e;
            }
        }
    }

    private UnrolledGraph unrolled(ControlFlowGraph graph, Frame<LocalReads.Reads>[] reads, List<PassLimit> limits) throws UnboundedLoopException {
        UnboundedLoopException last = null;
        for (LoopCounters.Choice choice : LoopCounters.Choice.values()) {
            if (choice != LoopCounters.Choice.LIMITS_ALONE && (last == null || !last.isTooLong())) {
                // more counters distinguish more iterations, never fewer
                try {
                    return new UnrolledGraph(new LoopCounters(graph, choice, reads, limits), propagation, given.get(graph.method()), hidden);
                } catch (UnboundedLoopException e) {
                    // an earlier choice may fail at a loop that this one ends
                    last = e;
                }
            }
        }
        throw last;
    }

    private void addGiven(State state) {
        MethodNode callee = Instructions.callee(owner, state.instruction());
        if (callee == null) {
            return;
        }
        int count = Type.getArgumentTypes(callee.desc).length;
        AbstractValue[] now = new AbstractValue[count];
        for (int i = 0; i < count; i++) {
            now[i] = state.operand(count - 1 - i);
        }
        given.merge(callee, now, LoopUnroller::common);
    }

    private static AbstractValue[] common(AbstractValue[] a, AbstractValue[] b) {
        AbstractValue[] all = new AbstractValue[a.length];
        for (int i = 0; i < a.length; i++) {
            all[i] = a[i].or(b[i]);
        }
        return all;
    }

    /** Returns the number of instructions on the longest path through the original `process`, with every iteration counted. */
    public long steps() {
        Map<MethodNode, Long> known = new HashMap<>();
        for (int i = methods.size() - 1; i >= 0; i--) {
            known.put(methods.get(i), steps(graphs.get(methods.get(i)), known));
        }
        return known.get(Instructions.method(owner, "process", Members.PROCESS));
    }

    private long steps(UnrolledGraph graph, Map<MethodNode, Long> known) {
        Map<State, Long> most = new IdentityHashMap<>();
        long behind = 0;
        for (int i = graph.order().size() - 1; i >= 0; i--) {
            State state = graph.order().get(i);
            long best = state.next.stream().mapToLong(most::get).max().orElse(0);
            MethodNode callee = Instructions.callee(owner, state.instruction());
            behind = best + Throws.steps(state.instruction()) + (callee == null ? 0 : known.get(callee));
            most.put(state, behind);
        }
        return behind;
    }

    /**
     * Replaces the code of each method that has loops, or that creates an array whose length is known, or one of few, but isn't a constant in the code.
     *
     * @return the changes, one line for each loop
     */
    public List<String> rewrite(CodeWriter.Form form) {
        List<String> notes = new ArrayList<>();
        for (MethodNode method : methods) {
            UnrolledGraph graph = graphs.get(method);
            if (!isToRewrite(graph)) {
                continue;
            }
            MethodNode made = new CodeWriter(graph, form).write();
            owner.methods.set(owner.methods.indexOf(method), made);
            for (Loop loop : graph.graph().loops()) {
                PassLimit limit = graph.limit(loop);
                notes.add(method.name + ", line " + graph.graph().line(loop.head()) + ": a loop, " + graph.passes(loop) + " passes written out"
                    + (limit == null ? "" : ", since it " + limit.what() + "; " + GOES_ON));
            }
            notes.add(method.name + ": " + graph.graph().size() + " instructions became " + Instructions.count(made));
        }
        return notes;
    }

    private static boolean isToRewrite(UnrolledGraph graph) {
        ControlFlowGraph code = graph.graph();
        return !code.loops().isEmpty() || graph.order().size() != code.size() || graph.order().stream().anyMatch(LoopUnroller::makesOfKnownLength);
    }

    private static boolean makesOfKnownLength(State state) {
        AbstractInsnNode at = state.instruction();
        boolean isKnown = at.getOpcode() == NEWARRAY && (state.operand(0).isConstant() || ConstantPropagation.hasFewLengths(state.operand(0)));
        return isKnown && Instructions.pushed(Instructions.previous(at)) == null;
    }
}
