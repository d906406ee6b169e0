package jentry.compiler.unroll;

import java.util.ArrayList;
import java.util.List;
import org.objectweb.asm.Opcodes;
import org.objectweb.asm.tree.AbstractInsnNode;
import org.objectweb.asm.tree.ClassNode;
import org.objectweb.asm.tree.InsnList;
import org.objectweb.asm.tree.InsnNode;
import org.objectweb.asm.tree.JumpInsnNode;
import org.objectweb.asm.tree.LabelNode;
import org.objectweb.asm.tree.MethodInsnNode;
import org.objectweb.asm.tree.MethodNode;
import org.objectweb.asm.tree.VarInsnNode;
import org.objectweb.asm.tree.analysis.AnalyzerException;
import org.objectweb.asm.tree.analysis.Frame;
import jentry.compiler.profile.Instructions;

/**
 * Computes loops at once that do nothing but add the same to some numbers in each pass, as {@code while (cents >= coin) { cents -= coin; coins++; }} does:
 * of any number of passes, by a division. A run of a loop that never ends, or in which the tested number overflows first, throws ArithmeticException.
 */
public final class RepeatedSteps implements Opcodes {
    private static final String LIBRARY = "jentry/compiler/library/StepsMethods";

    private final ControlFlowGraph graph;
    private final Loop loop;
    private final MethodNode method;
    private final InsnList code = new InsnList();

    private RepeatedSteps(ControlFlowGraph graph, Loop loop) {
        this.graph = graph;
        this.loop = loop;
        method = graph.method();
    }

    /** Replaces such loops in all methods of a class without exception handlers, which could catch what they throw. Returns how many there were. */
    public static int replace(ClassNode owner) {
        int replaced = 0;
        boolean catches = owner.methods.stream().anyMatch(it -> !it.tryCatchBlocks.isEmpty());
        for (MethodNode method : owner.methods) {
            while (!catches && method.instructions.size() > 0 && replaceOne(method)) {
                replaced++;
            }
        }
        return replaced;
    }

    private static boolean replaceOne(MethodNode method) {
        ControlFlowGraph graph = new ControlFlowGraph(method);
        for (Loop loop : graph.loops()) {
            try {
                if (new RepeatedSteps(graph, loop).replace()) {
                    return true;
                }
            } catch (AnalyzerException | RuntimeException e) {
                // a pass that can't be followed does more than such steps
                continue;
            }
        }
        return false;
    }

    private boolean replace() throws AnalyzerException {
        int test = onlyTest();
        if (test < 0 || !loop.body().stream().allMatch(it -> addsAtMost(graph.instruction(it)))) {
            return false;
        }
        LoopPass pass = new LoopPass(graph, loop);
        Frame<Term> before = pass.before(test).get(0);
        Frame<Term> end = pass.ends().get(0);
        int stays = loop.body().get(graph.successors(test)[1]) ? 1 : 0;
        LoopTest condition = LoopTest.of(graph.instruction(test).getOpcode(), before, stays == 1);
        boolean isFirst = before.getStackSize() <= (graph.instruction(test).getOpcode() >= IF_ICMPEQ ? 2 : 1) && changed(before).isEmpty();
        List<Step> steps = Step.of(end, changed(end));
        if (!isFirst || steps == null || !addPasses(condition, steps) && !addPasses(condition.mirrored(), steps)) {
            return false;
        }
        write(steps, graph.successors(test)[stays], graph.successors(test)[1 - stays]);
        return true;
    }

    /** Returns the test that is the only branch of the loop and leaves it, or -1. */
    private int onlyTest() {
        int[] branches = loop.body().stream().filter(it -> graph.successors(it).length != 1).toArray();
        boolean isTest = branches.length == 1 && PassLimit.isEachPassTest(graph, loop, branches[0]);
        return isTest ? branches[0] : -1;
    }

    /** Returns whether an instruction has no effect but on locals and operands, and throws nothing but for unboxing null. */
    private static boolean addsAtMost(AbstractInsnNode at) {
        int opcode = at.getOpcode();
        boolean isOfBox = at instanceof MethodInsnNode call && LoopPass.isOfBox(call);
        boolean isArithmetic = opcode >= IADD && opcode <= LSUB || opcode == INEG || opcode == LNEG || opcode == I2L || opcode == LCMP;
        return isOfBox || isArithmetic || Instructions.pushed(at) != null || at instanceof VarInsnNode || opcode == IINC || at instanceof JumpInsnNode;
    }

    private List<Integer> changed(Frame<Term> frame) {
        List<Integer> changed = new ArrayList<>();
        for (int local = 0; local < method.maxLocals; local++) {
            Term now = frame.getLocal(local);
            boolean isSecond = local > 0 && frame.getLocal(local - 1).size() == 2 && !frame.getLocal(local - 1).isLocal();
            if (!isSecond && !(now.isLocal() && now.local() == local)) {
                changed.add(local);
            }
        }
        return changed;
    }

    /** Adds the call that computes the passes, if the condition compares the number of one of the steps to what stays the same. */
    private boolean addPasses(LoopTest condition, List<Step> steps) {
        Step moved = steps.stream().filter(it -> it.number().equals(condition.left())).findFirst().orElse(null);
        boolean isDown = condition.comparison() == 3 || condition.comparison() == 4;
        boolean isOrdered = isDown || condition.comparison() == 2 || condition.comparison() == 5;
        if (moved == null || !isOrdered || !Step.isSame(condition.right(), steps) || moved.isTowards(isDown) == null) {
            return false;
        }
        boolean isStrict = condition.comparison() == 2 || condition.comparison() == 4;
        boolean isLong = moved.number().size() == 2;
        addLong(moved.number());
        addLong(condition.right());
        if (isStrict) {
            code.add(new InsnNode(LCONST_1));
            code.add(new InsnNode(isDown ? LADD : LSUB));
        }
        addLong(moved.isTowards(isDown));
        code.add(Instructions.push(isLong ? isDown ? Long.MIN_VALUE : Long.MAX_VALUE : isDown ? Integer.MIN_VALUE : (long) Integer.MAX_VALUE));
        code.add(new MethodInsnNode(INVOKESTATIC, LIBRARY, isDown ? "down" : "up", "(JJJJ)J", false));
        code.add(new VarInsnNode(LSTORE, method.maxLocals));
        return true;
    }

    private void addLong(Term term) {
        Step.addTerm(term, code);
        if (term.size() == 1) {
            code.add(new InsnNode(I2L));
        }
    }

    private void write(List<Step> steps, int first, int exit) {
        steps.forEach(it -> it.addAll(method.maxLocals, code));
        LabelNode behind = new LabelNode();
        code.add(new JumpInsnNode(GOTO, behind));
        method.instructions.insertBefore(graph.instruction(exit), behind);
        method.instructions.insertBefore(graph.instruction(first), code);
        for (int place = first; loop.body().get(place) && place != loop.head(); ) {
            int next = graph.successors(place)[0];
            method.instructions.remove(graph.instruction(place));
            place = next;
        }
        method.maxLocals += 2;
        method.maxStack = Math.max(method.maxStack, 10);
    }
}
