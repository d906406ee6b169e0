package jentry.compiler.unroll;

import java.util.ArrayDeque;
import java.util.ArrayList;
import java.util.Arrays;
import java.util.BitSet;
import java.util.Comparator;
import java.util.Deque;
import java.util.IdentityHashMap;
import java.util.LinkedHashMap;
import java.util.List;
import java.util.Map;
import org.objectweb.asm.Opcodes;
import org.objectweb.asm.tree.AbstractInsnNode;
import org.objectweb.asm.tree.IincInsnNode;
import org.objectweb.asm.tree.JumpInsnNode;
import org.objectweb.asm.tree.LabelNode;
import org.objectweb.asm.tree.LineNumberNode;
import org.objectweb.asm.tree.LookupSwitchInsnNode;
import org.objectweb.asm.tree.MethodNode;
import org.objectweb.asm.tree.TableSwitchInsnNode;
import org.objectweb.asm.tree.VarInsnNode;

/** The control flow of a method: its instructions, numbered from 0, their successors, and its loops. */
public final class ControlFlowGraph implements Opcodes {
    private final MethodNode method;
    private final List<AbstractInsnNode> instructions = new ArrayList<>();
    private final List<Integer> lines = new ArrayList<>();
    private final Map<AbstractInsnNode, Integer> places = new IdentityHashMap<>();
    private final List<int[]> successors = new ArrayList<>();
    private final List<List<Integer>> predecessors = new ArrayList<>();
    private final List<Loop> loops = new ArrayList<>();
    private final List<BitSet> writtenAround = new ArrayList<>();
    private final int[] dominator;
    private final int[] order;

    /** Analyses a method that has code and no exception handlers. */
    public ControlFlowGraph(MethodNode method) {
        this.method = method;
        int line = -1;
        for (AbstractInsnNode at : method.instructions) {
            places.put(at, instructions.size());
            if (at instanceof LineNumberNode it) {
                line = it.line;
            } else if (at.getOpcode() >= 0) {
                instructions.add(at);
                lines.add(line);
                predecessors.add(new ArrayList<>());
            }
        }
        for (int i = 0; i < instructions.size(); i++) {
            successors.add(leadsTo(i));
        }
        dominator = new int[instructions.size()];
        order = new int[instructions.size()];
        Arrays.fill(order, -1);
        findDominators();
        findLoops();
        findWrites();
    }

    MethodNode method() {
        return method;
    }

    int size() {
        return instructions.size();
    }

    AbstractInsnNode instruction(int place) {
        return instructions.get(place);
    }

    int line(int place) {
        return lines.get(place);
    }

    List<Loop> loops() {
        return loops;
    }

    /** Returns whether a place is reachable. */
    public boolean isReached(int place) {
        return order[place] >= 0;
    }

    /** Returns whether an instruction is reachable. */
    public boolean isReached(AbstractInsnNode at) {
        return at.getOpcode() < 0 || isReached(places.get(at));
    }

    /** Returns the successors: of a test the next instruction and its target, of a switch its default and its cases. */
    int[] successors(int place) {
        return successors.get(place);
    }

    /** Returns the predecessors of a place. */
    List<Integer> predecessors(int place) {
        return predecessors.get(place);
    }

    private int[] leadsTo(int place) {
        AbstractInsnNode at = instructions.get(place);
        int opcode = at.getOpcode();
        if (at instanceof JumpInsnNode jump) {
            return opcode == GOTO ? new int[] {places.get(jump.label)} : new int[] {place + 1, places.get(jump.label)};
        } else if (at instanceof TableSwitchInsnNode it) {
            return leadsTo(it.dflt, it.labels);
        } else if (at instanceof LookupSwitchInsnNode it) {
            return leadsTo(it.dflt, it.labels);
        }
        return opcode >= IRETURN && opcode <= RETURN || opcode == ATHROW ? new int[0] : new int[] {place + 1};
    }

    private int[] leadsTo(LabelNode otherwise, List<LabelNode> labels) {
        int[] all = new int[labels.size() + 1];
        all[0] = places.get(otherwise);
        for (int i = 0; i < labels.size(); i++) {
            all[i + 1] = places.get(labels.get(i));
        }
        return all;
    }

    // Computes dominators by the algorithm of Cooper, Harvey and Kennedy: in reverse postorder, until nothing changes.
    private void findDominators() {
        List<Integer> reversed = Postorder.reversed(size(), this::successors);
        for (int i = 0; i < reversed.size(); i++) {
            order[reversed.get(i)] = i;
        }
        for (int place : reversed) {
            for (int next : successors(place)) {
                predecessors.get(next).add(place);
            }
        }
        Arrays.fill(dominator, -1);
        dominator[0] = 0;
        for (boolean changed = true; changed;) {
            changed = false;
            for (int place : reversed) {
                int found = place == 0 ? 0 : commonDominator(place);
                changed |= dominator[place] != found;
                dominator[place] = found;
            }
        }
    }

    private int commonDominator(int place) {
        int common = -1;
        for (int before : predecessors.get(place)) {
            if (dominator[before] >= 0) {
                common = common < 0 ? before : intersect(common, before);
            }
        }
        return common;
    }

    private int intersect(int a, int b) {
        int left = a;
        int right = b;
        while (left != right) {
            while (order[left] > order[right]) {
                left = dominator[left];
            }
            while (order[right] > order[left]) {
                right = dominator[right];
            }
        }
        return left;
    }

    /** Returns places in an order in which each comes after those that lead to it, loops aside. */
    int[] inOrder(BitSet places) {
        return places.stream().boxed().sorted(Comparator.comparingInt(place -> order[place])).mapToInt(place -> place).toArray();
    }

    /** Returns whether a place comes before another in that order. */
    boolean isBefore(int place, int other) {
        return order[place] < order[other];
    }

    /** Returns whether every path to a place goes through the place {@code above}. */
    boolean dominates(int above, int place) {
        int at = place;
        while (order[at] > order[above]) {
            at = dominator[at];
        }
        return at == above;
    }

    private void findLoops() {
        Map<Integer, Loop> byHead = new LinkedHashMap<>();
        for (int place = 0; place < size(); place++) {
            for (int head : successors(place)) {
                if (isReached(place) && dominates(head, place)) {
                    addLatch(byHead.computeIfAbsent(head, it -> new Loop(it, new BitSet(), new BitSet())), place);
                }
            }
        }
        loops.addAll(byHead.values());
    }

    private void findWrites() {
        instructions.forEach(it -> writtenAround.add(new BitSet()));
        for (Loop loop : loops) {
            BitSet written = new BitSet();
            loop.body().stream().map(it -> written(instructions.get(it))).filter(it -> it >= 0).forEach(written::set);
            loop.body().stream().forEach(place -> writtenAround.get(place).or(written));
        }
    }

    /** Returns the local that an instruction writes, or -1. */
    static int written(AbstractInsnNode at) {
        boolean stores = at.getOpcode() >= ISTORE && at.getOpcode() <= ASTORE;
        return stores ? ((VarInsnNode) at).var : at instanceof IincInsnNode it ? it.var : -1;
    }

    /** Returns whether a loop around a place writes a local. */
    boolean isWrittenAround(int place, int local) {
        return writtenAround.get(place).get(local);
    }

    private void addLatch(Loop loop, int latch) {
        loop.latches().set(latch);
        loop.body().set(loop.head());
        Deque<Integer> open = new ArrayDeque<>(List.of(latch));
        while (!open.isEmpty()) {
            int place = open.pop();
            if (!loop.body().get(place)) {
                loop.body().set(place);
                open.addAll(predecessors.get(place));
            }
        }
    }
}
