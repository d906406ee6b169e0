package jentry.compiler.unroll;

import java.util.ArrayList;
import java.util.HashSet;
import java.util.List;
import java.util.Set;
import java.util.TreeSet;
import java.util.function.IntPredicate;
import org.objectweb.asm.Opcodes;
import org.objectweb.asm.tree.AbstractInsnNode;
import org.objectweb.asm.tree.analysis.Frame;

/** Chooses the local variables whose values distinguish the iterations of a loop. */
final class LoopCounters implements Opcodes {
    /** Which locals are tracked, the fewest first. The first choice with which all loops of a method end is used. */
    enum Choice {
        /** Locals that an exit test of the loop reads and that every iteration writes. */
        WRITTEN_BY_EACH_PASS,
        /** Locals that an exit test of the loop reads and that some iteration writes. */
        WRITTEN_BY_SOME_PASS,
        /** Locals that any test in the loop reads and that some iteration writes. */
        OF_ANY_TEST,
        /** None in loops that have a limit, so that a loop whose limit isn't known is found. In others those that every iteration writes. */
        LIMITS_ALONE
    }

    private final ControlFlowGraph graph;
    private final Choice choice;
    private final Frame<LocalReads.Reads>[] reads;
    private final List<PassLimit> limits;

    /**
     * Creates the counters of a method.
     *
     * @param limits the limits of loops that shrink a value; the local behind those of the method counts the passes of the first, and so on
     */
    LoopCounters(ControlFlowGraph graph, Choice choice, Frame<LocalReads.Reads>[] reads, List<PassLimit> limits) {
        this.graph = graph;
        this.choice = choice;
        this.reads = reads;
        this.limits = limits;
    }

    ControlFlowGraph graph() {
        return graph;
    }

    List<PassLimit> limits() {
        return limits;
    }

    /** Returns, for each instruction, the counters of the loops around it, in ascending order. */
    int[][] byPlace() {
        List<Set<Integer>> all = new ArrayList<>();
        for (int place = 0; place < graph.size(); place++) {
            all.add(new TreeSet<>());
        }
        for (Loop loop : graph.loops()) {
            boolean isLimited = choice == Choice.LIMITS_ALONE && limits.stream().anyMatch(it -> it.loop() == loop);
            Set<Integer> counters = isLimited ? Set.of() : counters(loop);
            loop.body().stream().forEach(place -> all.get(place).addAll(counters));
        }
        for (int i = 0; i < limits.size(); i++) {
            int passes = graph.method().maxLocals + i;
            limits.get(i).loop().body().stream().forEach(place -> all.get(place).add(passes));
        }
        return all.stream().map(it -> it.stream().mapToInt(local -> local).toArray()).toArray(int[][]::new);
    }

    private Set<Integer> counters(Loop loop) {
        Set<Integer> tested = new HashSet<>();
        loop.body().stream().filter(place -> isTest(loop, place)).forEach(place -> addReads(place, tested));
        tested.removeIf(local -> !isWritten(loop, local));
        return tested;
    }

    private boolean isTest(Loop loop, int place) {
        int[] next = graph.successors(place);
        if (next.length < 2) {
            return false;
        }
        IntPredicate leaves = it -> !loop.body().get(it);
        return choice == Choice.OF_ANY_TEST || loop.latches().get(place) || java.util.Arrays.stream(next).anyMatch(leaves);
    }

    /** Adds the locals that the operands of a test read. */
    private void addReads(int test, Set<Integer> locals) {
        AbstractInsnNode at = graph.instruction(test);
        Frame<LocalReads.Reads> frame = reads[graph.method().instructions.indexOf(at)];
        boolean isOfTwo = at.getOpcode() >= IF_ICMPEQ && at.getOpcode() <= IF_ICMPLE;
        for (int below = 1; frame != null && below <= (isOfTwo ? 2 : 1); below++) {
            locals.addAll(frame.getStack(frame.getStackSize() - below).locals());
        }
    }

    private boolean isWritten(Loop loop, int local) {
        int[] writes = loop.body().stream().filter(place -> writes(graph.instruction(place), local)).toArray();
        if (choice == Choice.WRITTEN_BY_SOME_PASS || choice == Choice.OF_ANY_TEST) {
            return writes.length > 0;
        }
        for (int write : writes) {
            if (!loop.latches().stream().allMatch(latch -> graph.dominates(write, latch))) {
                return false;
            }
        }
        return writes.length > 0;
    }

    private static boolean writes(AbstractInsnNode at, int local) {
        return at.getOpcode() != ASTORE && ControlFlowGraph.written(at) == local;
    }
}
