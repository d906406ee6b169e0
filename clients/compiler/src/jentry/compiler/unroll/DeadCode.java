package jentry.compiler.unroll;

import java.util.BitSet;
import java.util.HashSet;
import java.util.IdentityHashMap;
import java.util.List;
import java.util.Map;
import java.util.Set;
import org.objectweb.asm.Opcodes;
import org.objectweb.asm.tree.AbstractInsnNode;
import org.objectweb.asm.tree.IincInsnNode;
import org.objectweb.asm.tree.InsnList;
import org.objectweb.asm.tree.JumpInsnNode;
import org.objectweb.asm.tree.LabelNode;
import org.objectweb.asm.tree.LineNumberNode;
import org.objectweb.asm.tree.VarInsnNode;
import jentry.compiler.profile.Instructions;

/** Removes code without effect: discarded values, stores that are never read, jumps to the next instruction. */
final class DeadCode implements Opcodes {
    private final InsnList code;
    private final Set<Integer> presentArrays;

    /** Analyses code whose branches all lead forward. */
    DeadCode(InsnList code, UnrolledGraph graph) {
        this.code = code;
        presentArrays = presentArrays(graph);
    }

    /** Returns the locals that hold a non-null array at each of their loads. */
    private static Set<Integer> presentArrays(UnrolledGraph graph) {
        Set<Integer> present = new HashSet<>();
        Set<Integer> others = new HashSet<>();
        for (State state : graph.order()) {
            if (state.opcode() == ALOAD) {
                int local = ((VarInsnNode) state.instruction()).var;
                (UnrolledGraph.isPresent(state.frame.getLocal(local)) ? present : others).add(local);
            }
        }
        present.removeAll(others);
        return present;
    }

    void eliminate() {
        for (boolean changed = true; changed;) {
            changed = dropDiscarded() | dropStores() | dropJumps();
        }
    }

    /** Removes the labels that no branch and no line number uses: each would start a basic block when frames are computed. */
    static void dropLabels(InsnList code) {
        Set<LabelNode> used = Instructions.targets(code);
        for (AbstractInsnNode at : code) {
            if (at instanceof LineNumberNode line) {
                used.add(line.start);
            }
        }
        for (AbstractInsnNode at : code.toArray()) {
            if (at instanceof LabelNode label && !used.contains(label)) {
                code.remove(at);
            }
        }
    }

    /** Removes a push followed by its pop, and replaces a pure instruction followed by its pop by pops of its operands. */
    private boolean dropDiscarded() {
        Set<LabelNode> targets = Instructions.targets(code);
        boolean changed = false;
        for (AbstractInsnNode at : code.toArray()) {
            if (at.getOpcode() != POP && at.getOpcode() != POP2) {
                continue;
            }
            AbstractInsnNode before = Instructions.previous(at, targets);
            if (before == null || !Purity.isPure(before) || Purity.size(before) != (at.getOpcode() == POP2 ? 2 : 1)) {
                continue;
            } else if (before.getOpcode() == ARRAYLENGTH && !isPresent(Instructions.previous(before, targets))) {
                continue;
            }
            for (int size : Purity.operands(before.getOpcode())) {
                code.insertBefore(before, Instructions.pop(size));
            }
            code.remove(before);
            code.remove(at);
            changed = true;
        }
        return changed;
    }

    private boolean isPresent(AbstractInsnNode at) {
        return at != null && at.getOpcode() == ALOAD && presentArrays.contains(((VarInsnNode) at).var);
    }

    private boolean dropJumps() {
        boolean changed = false;
        for (AbstractInsnNode at : code.toArray()) {
            if (at.getOpcode() != GOTO) {
                continue;
            }
            AbstractInsnNode next = at.getNext();
            while (next != null && next.getOpcode() < 0 && next != ((JumpInsnNode) at).label) {
                next = next.getNext();
            }
            if (next == ((JumpInsnNode) at).label) {
                code.remove(at);
                changed = true;
            }
        }
        return changed;
    }

    /** Removes stores that are never read. All branches lead forward, so one pass from the end finds which locals are read later. */
    private boolean dropStores() {
        Map<LabelNode, BitSet> liveAt = new IdentityHashMap<>();
        BitSet live = new BitSet();
        boolean changed = false;
        AbstractInsnNode[] all = code.toArray();
        for (int i = all.length - 1; i >= 0; i--) {
            AbstractInsnNode at = all[i];
            int opcode = at.getOpcode();
            if (at instanceof LabelNode label) {
                liveAt.put(label, (BitSet) live.clone());
            } else if (opcode >= ILOAD && opcode <= ALOAD) {
                live.set(((VarInsnNode) at).var);
            } else if (opcode >= ISTORE && opcode <= ASTORE || opcode == IINC) {
                changed |= dropStore(at, live);
            } else if (opcode >= 0) {
                live = liveBefore(at, live, liveAt);
            }
        }
        return changed;
    }

    private static BitSet liveBefore(AbstractInsnNode at, BitSet live, Map<LabelNode, BitSet> liveAt) {
        int opcode = at.getOpcode();
        List<LabelNode> targets = Instructions.targets(at);
        boolean fallsThrough = opcode != GOTO && opcode != ATHROW && opcode != TABLESWITCH && opcode != LOOKUPSWITCH
            && !(opcode >= IRETURN && opcode <= RETURN);
        if (fallsThrough && targets.isEmpty()) {
            return live;
        }
        BitSet before = fallsThrough ? live : new BitSet();
        targets.forEach(it -> before.or(liveAt.get(it)));
        return before;
    }

    private boolean dropStore(AbstractInsnNode at, BitSet live) {
        int local = at instanceof IincInsnNode it ? it.var : ((VarInsnNode) at).var;
        boolean isRead = live.get(local);
        if (at.getOpcode() == IINC) {
            if (!isRead) {
                code.remove(at);
            }
            return !isRead;
        }
        live.clear(local);
        if (!isRead) {
            code.set(at, Instructions.pop(at.getOpcode() == LSTORE || at.getOpcode() == DSTORE ? 2 : 1));
        }
        return !isRead;
    }
}
