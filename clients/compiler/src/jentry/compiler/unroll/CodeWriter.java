package jentry.compiler.unroll;

import java.util.Arrays;
import java.util.List;
import java.util.Map;
import org.objectweb.asm.Opcodes;
import org.objectweb.asm.Type;
import org.objectweb.asm.tree.AbstractInsnNode;
import org.objectweb.asm.tree.InsnList;
import org.objectweb.asm.tree.InsnNode;
import org.objectweb.asm.tree.IntInsnNode;
import org.objectweb.asm.tree.JumpInsnNode;
import org.objectweb.asm.tree.LabelNode;
import org.objectweb.asm.tree.LineNumberNode;
import org.objectweb.asm.tree.LookupSwitchInsnNode;
import org.objectweb.asm.tree.MethodNode;
import org.objectweb.asm.tree.TableSwitchInsnNode;
import jentry.compiler.profile.Instructions;

/** Writes the states of a method as code, in an order in which all branches lead forward. */
public final class CodeWriter implements Opcodes {
    /** The form of the generated code. */
    public enum Form {
        /** Omits decided tests, loads of known numbers, and stores that are never read. */
        FOLDED,
        /** Like FOLDED, but pushes small longs by two instructions, which are shorter. */
        SHORT,
        /** Keeps every instruction, so the number of steps is that of the loops. */
        VERBATIM
    }

    private final UnrolledGraph graph;
    private final Form form;
    private final LabelNode[] labels;
    private final InsnList code = new InsnList();

    CodeWriter(UnrolledGraph graph, Form form) {
        this.graph = graph;
        this.form = form;
        labels = new LabelNode[graph.order().stream().mapToInt(State::number).max().orElse(0) + 1];
    }

    MethodNode write() {
        MethodNode old = graph.graph().method();
        List<State> order = graph.order();
        order.forEach(it -> labels[it.number()] = new LabelNode());
        int line = -1;
        for (int i = 0; i < order.size(); i++) {
            State state = order.get(i);
            LabelNode label = label(state);
            code.add(label);
            int now = graph.graph().line(state.place());
            if (now >= 0 && now != line) {
                code.add(new LineNumberNode(now, label));
                line = now;
            }
            add(state, i + 1 < order.size() ? order.get(i + 1) : null);
        }
        if (form != Form.VERBATIM) {
            new DeadCode(code, graph).eliminate();
        }
        DeadCode.dropLabels(code);
        MethodNode made = new MethodNode(ASM9, old.access, old.name, old.desc, old.signature, old.exceptions.toArray(new String[0]));
        made.instructions = code;
        made.maxLocals = old.maxLocals;
        made.maxStack = old.maxStack;
        return made;
    }

    private LabelNode label(State state) {
        return labels[state.number()];
    }

    private void add(State state, State behind) {
        AbstractInsnNode at = state.instruction();
        if (state.isGuard()) {
            addGuard();
        } else if (state.isDecided && form != Form.VERBATIM) {
            addDecided(state, behind);
        } else if (at instanceof JumpInsnNode && state.opcode() == GOTO) {
            if (form == Form.VERBATIM) {
                code.add(new JumpInsnNode(GOTO, label(state.next.get(0))));
            } else {
                leadTo(state.next.get(0), behind);
            }
        } else if (at instanceof JumpInsnNode) {
            addTest(state, behind);
        } else if (at instanceof TableSwitchInsnNode it) {
            code.add(new TableSwitchInsnNode(it.min, it.max, target(state, 0), targets(state, it.labels.size())));
        } else if (at instanceof LookupSwitchInsnNode it) {
            int[] keys = it.keys.stream().mapToInt(key -> key).toArray();
            code.add(new LookupSwitchInsnNode(target(state, 0), keys, targets(state, keys.length)));
        } else {
            addPlain(state);
            if (!state.next.isEmpty()) {
                leadTo(state.next.get(0), behind);
            } else if (UnrolledGraph.isBeyondArray(state)) {
                // it has thrown, but the verifier wants code behind it
                addGuard();
            }
        }
    }

    /** Adds a new array whose length is on the stack: one for each length that it may have. */
    private void addArrayOf(AbstractValue length, IntInsnNode at) {
        LabelNode[] sizes = new LabelNode[(int) (length.high() - length.low()) + 1];
        Arrays.setAll(sizes, it -> new LabelNode());
        LabelNode end = new LabelNode();
        int last = sizes.length - 1;
        code.add(new TableSwitchInsnNode((int) length.low(), (int) length.high() - 1, sizes[last], Arrays.copyOf(sizes, last)));
        for (int i = 0; i <= last; i++) {
            code.add(sizes[i]);
            code.add(Instructions.push((int) length.low() + i));
            code.add(new IntInsnNode(NEWARRAY, at.operand));
            if (i < last) {
                code.add(new JumpInsnNode(GOTO, end));
            }
        }
        code.add(end);
    }

    /** Adds an ArithmeticException, and a return that is never reached. */
    private void addGuard() {
        Type result = Type.getReturnType(graph.graph().method().desc);
        code.add(new InsnNode(ICONST_1));
        code.add(new InsnNode(ICONST_0));
        code.add(new InsnNode(IDIV));
        switch (result.getSort()) {
            case Type.VOID, Type.OBJECT, Type.ARRAY -> code.add(new InsnNode(POP));
            case Type.LONG -> code.add(new InsnNode(I2L));
            default -> { }
        }
        if (result.getSort() >= Type.ARRAY) {
            code.add(new InsnNode(ACONST_NULL));
        }
        code.add(new InsnNode(result.getOpcode(IRETURN)));
    }

    private void addDecided(State state, State behind) {
        code.add(new InsnNode(POP));
        if (state.opcode() >= IF_ICMPEQ && state.opcode() <= IF_ICMPLE) {
            code.add(new InsnNode(POP));
        }
        leadTo(state.next.get(0), behind);
    }

    private void addPlain(State state) {
        if (state.opcode() == NEWARRAY && ConstantPropagation.hasFewLengths(state.operand(0))) {
            addArrayOf(state.operand(0), (IntInsnNode) state.instruction());
            return;
        }
        boolean isLength = state.next.size() == 1 && state.next.get(0).opcode() == NEWARRAY && Purity.operands(state.opcode()).length == 0;
        if (state.result == null || form == Form.VERBATIM && !isLength) {
            code.add(state.instruction().clone(Map.of()));
            return;
        }
        for (int size : Purity.operands(state.opcode())) {
            code.add(Instructions.pop(size));
        }
        boolean isShort = form == Form.SHORT && state.result instanceof Long number && number == (short) (long) number && number != 0 && number != 1;
        if (isShort) {
            code.add(Instructions.push((int) (long) (Long) state.result));
            code.add(new InsnNode(I2L));
        } else {
            code.add(Instructions.push(state.result));
        }
    }

    /** Adds a test of which both branches are kept. In VERBATIM form one branch of a decided test is never taken. */
    private void addTest(State state, State behind) {
        State falls = state.next.get(0);
        State jumps = state.next.get(state.next.size() - 1);
        if (jumps == behind && falls != behind) {
            code.add(new JumpInsnNode(negated(state.opcode()), label(falls)));
        } else {
            code.add(new JumpInsnNode(state.opcode(), label(jumps)));
            leadTo(falls, behind);
        }
    }

    private static int negated(int opcode) {
        return opcode >= IFNULL ? opcode ^ 1 : ((opcode + 1) ^ 1) - 1;
    }

    private void leadTo(State to, State behind) {
        if (to != behind) {
            code.add(new JumpInsnNode(GOTO, label(to)));
        }
    }

    private LabelNode target(State state, int successor) {
        return label(state.next.get(state.isDecided ? 0 : successor));
    }

    private LabelNode[] targets(State state, int count) {
        LabelNode[] all = new LabelNode[count];
        for (int i = 0; i < count; i++) {
            all[i] = target(state, i + 1);
        }
        return all;
    }
}
