package jentry.compiler.unroll;

import java.util.ArrayList;
import java.util.List;
import java.util.function.ToIntFunction;
import java.util.stream.IntStream;
import org.objectweb.asm.Opcodes;
import org.objectweb.asm.tree.analysis.AnalyzerException;
import org.objectweb.asm.tree.analysis.Frame;

/**
 * A limit for the passes of a loop that shrinks a value, by one of its tests.
 *
 * @param loop the loop
 * @param test the test that fails when the value has shrunk: each pass comes to it
 * @param stays the index among the test's successors of the one in the loop
 * @param what what the loop does, for notes
 * @param isSignedShift whether it shifts by >>, which is 0 in the end only of what isn't negative
 * @param passes the number of passes for what is known where the loop is entered
 */
record PassLimit(Loop loop, int test, int stays, String what, boolean isSignedShift, ToIntFunction<Frame<AbstractValue>> passes) implements Opcodes {
    /** Returns the limits of a loop, one for each of its tests with a known pattern. */
    static List<PassLimit> of(ControlFlowGraph graph, Loop loop) {
        List<PassLimit> limits = new ArrayList<>();
        try {
            LoopPass pass = new LoopPass(graph, loop);
            for (int test : graph.inOrder(loop.body())) {
                PassLimit limit = isEachPassTest(graph, loop, test) ? of(graph, loop, pass, test) : null;
                if (limit != null) {
                    limits.add(limit);
                }
            }
        } catch (AnalyzerException | RuntimeException e) {
            // a pass that can't be followed has no pattern
            limits.clear();
        }
        return limits;
    }

    /** Returns whether a place is a test that leaves the loop, and each pass comes to it. */
    static boolean isEachPassTest(ControlFlowGraph graph, Loop loop, int place) {
        int[] next = graph.successors(place);
        int opcode = graph.instruction(place).getOpcode();
        boolean isTest = next.length == 2 && opcode >= IFEQ && opcode <= IF_ICMPLE;
        return isTest && loop.body().get(next[0]) != loop.body().get(next[1]) && loop.latches().stream().allMatch(it -> graph.dominates(place, it));
    }

    private static boolean hasOneExit(ControlFlowGraph graph, Loop loop) {
        return loop.body().stream().flatMap(it -> IntStream.of(graph.successors(it))).filter(it -> !loop.body().get(it)).count() == 1;
    }

    private static PassLimit of(ControlFlowGraph graph, Loop loop, LoopPass pass, int test) {
        int stays = loop.body().get(graph.successors(test)[1]) ? 1 : 0;
        List<LoopTest> tests = pass.before(test).stream().map(it -> LoopTest.of(graph.instruction(test).getOpcode(), it, stays == 1)).distinct().toList();
        if (tests.size() != 1 || pass.ends().isEmpty()) {
            return null;
        }
        ShrinkingPattern shrinking = ShrinkingPattern.of(tests.get(0), pass.ends());
        ShrinkingPattern pattern = shrinking == null && hasOneExit(graph, loop) ? CyclingPattern.of(tests.get(0), pass.ends()) : shrinking;
        return pattern == null ? null : new PassLimit(loop, test, stays, pattern.what(), pattern.isSignedShift(), pattern.passes());
    }
}
