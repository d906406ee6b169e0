package jentry.compiler.unroll;

import java.util.ArrayDeque;
import java.util.ArrayList;
import java.util.BitSet;
import java.util.Collections;
import java.util.Deque;
import java.util.List;
import java.util.function.IntFunction;

/** A depth-first search without recursion, from node 0, in a graph of numbered nodes. */
final class Postorder {
    private Postorder() { }

    /**
     * Returns the reachable nodes in reverse postorder: without cycles, each comes before its successors. The first successor of a node is searched
     * last, so it comes right after the node if nothing has to come between.
     *
     * @param size the number of nodes
     * @param successors the successors of a node
     */
    static List<Integer> reversed(int size, IntFunction<int[]> successors) {
        List<Integer> ended = new ArrayList<>();
        BitSet seen = new BitSet(size);
        Deque<int[]> open = new ArrayDeque<>();
        seen.set(0);
        open.push(new int[] {0, successors.apply(0).length});
        while (!open.isEmpty()) {
            int[] top = open.peek();
            if (top[1] == 0) {
                ended.add(top[0]);
                open.pop();
                continue;
            }
            int next = successors.apply(top[0])[--top[1]];
            if (!seen.get(next)) {
                seen.set(next);
                open.push(new int[] {next, successors.apply(next).length});
            }
        }
        Collections.reverse(ended);
        return ended;
    }
}
