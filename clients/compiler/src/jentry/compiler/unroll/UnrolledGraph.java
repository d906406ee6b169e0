package jentry.compiler.unroll;

import java.util.ArrayDeque;
import java.util.ArrayList;
import java.util.Deque;
import java.util.HashMap;
import java.util.List;
import java.util.Map;
import java.util.TreeMap;
import org.objectweb.asm.Opcodes;
import org.objectweb.asm.Type;
import org.objectweb.asm.tree.AbstractInsnNode;
import org.objectweb.asm.tree.InsnNode;
import org.objectweb.asm.tree.JumpInsnNode;
import org.objectweb.asm.tree.MethodNode;
import org.objectweb.asm.tree.analysis.AnalyzerException;
import org.objectweb.asm.tree.analysis.Frame;
import jentry.compiler.profile.Instructions;
import jentry.compiler.profile.Members;

/**
 * The control flow of a method with its loops unrolled: a graph without cycles.
 *
 * <p>It is computed by abstract interpretation. A state is an instruction together with the values of the counters of the loops around it; for the
 * other locals and operands it has what all paths to the state have in common. A test that this decides has one successor.
 */
final class UnrolledGraph implements Opcodes {
    /** The maximum number of states of a method: the code of more wouldn't fit into a class. */
    static final int MOST_STATES = 60_000;

    private static final int MERGES_BEFORE_WIDENING = 4;

    private final ControlFlowGraph graph;
    private final List<PassLimit> limits;
    private final int[][] counters;
    private final Refinement refinement;
    private final ConstantPropagation propagation;
    private final Map<State.Key, State> states = new HashMap<>();
    private final List<State> byNumber = new ArrayList<>();
    private final Deque<State> open = new ArrayDeque<>();
    private final List<State> order = new ArrayList<>();
    private final Map<Integer, UnboundedLoopException.Reason> unlimited = new HashMap<>();

    /**
     * Computes the graph.
     *
     * @param counters the locals whose values tell the passes of loops apart
     * @param propagation computes what is known after each instruction
     * @param given what is known about each parameter of a static or own method, or null
     * @param hidden the number of arguments that are always passed
     * @throws UnboundedLoopException if the counters don't end a loop, or the graph has too many states
     */
    UnrolledGraph(LoopCounters counters, ConstantPropagation propagation, AbstractValue[] given, int hidden) throws UnboundedLoopException {
        graph = counters.graph();
        limits = counters.limits();
        this.propagation = propagation;
        this.counters = counters.byPlace();
        refinement = new Refinement(graph);
        try {
            enter(0, start(given, hidden));
            while (!open.isEmpty()) {
                interpret(open.poll());
            }
        } catch (AnalyzerException e) {
            throw new IllegalStateException("the code of " + graph.method().name + " isn't well formed", e);
        }
        arrange();
    }

    ControlFlowGraph graph() {
        return graph;
    }

    /** Returns the reachable states, each before its successors. */
    List<State> order() {
        return order;
    }

    /** Returns the limit of a loop that shrinks a value, or null if its counters end it. */
    PassLimit limit(Loop loop) {
        return limits.stream().filter(it -> it.loop() == loop).findFirst().orElse(null);
    }

    /** Returns the total number of iterations of a loop: the number of copies of a latch, which occurs once in each iteration. */
    int passes(Loop loop) {
        Map<Integer, Integer> copies = new HashMap<>();
        order.stream().filter(it -> loop.latches().get(it.place()) && !it.isGuard()).forEach(it -> copies.merge(it.place(), 1, Integer::sum));
        return copies.values().stream().mapToInt(it -> it).max().orElse(0);
    }

    private Frame<AbstractValue> start(AbstractValue[] given, int hidden) {
        MethodNode method = graph.method();
        Frame<AbstractValue> frame = new Frame<>(method.maxLocals + limits.size(), method.maxStack);
        int local = 0;
        if (!Instructions.isStatic(method)) {
            frame.setLocal(local++, AbstractValue.unknown(1));
        }
        boolean isProcess = method.name.equals("process") && method.desc.equals(Members.PROCESS);
        Type[] types = Type.getArgumentTypes(method.desc);
        for (int i = 0; i < types.length; i++) {
            AbstractValue value = given != null && given[i].fact() != null ? given[i] : AbstractValue.unknown(types[i].getSize());
            if (value.fact() == null && types[i].getDescriptor().equals("[Ljava/lang/Object;")) {
                value = AbstractValue.array(isProcess ? hidden : 0, ConstantPropagation.MOST_ARGUMENTS, isProcess);
            }
            frame.setLocal(local++, value);
            if (types[i].getSize() == 2) {
                frame.setLocal(local++, AbstractValue.unknown(1));
            }
        }
        while (local < frame.getLocals()) {
            frame.setLocal(local++, AbstractValue.unknown(1));
        }
        return frame;
    }

    private void interpret(State state) throws UnboundedLoopException, AnalyzerException {
        AbstractInsnNode at = state.instruction();
        Frame<AbstractValue> after = new Frame<>(state.frame);
        int decided = ConstantPropagation.decided(at, after);
        after.execute(at, propagation);
        state.isDecided = decided >= 0;
        state.result = result(state, after);
        List<State> next = new ArrayList<>();
        int[] successors = isBeyondArray(state) ? new int[0] : graph.successors(state.place());
        for (int i = 0; i < successors.length; i++) {
            if (isPastLimit(state, i)) {
                next.add(decided < 0 || decided == i ? guard(state) : null);
            } else if (decided < 0 && successors.length == 2 && at instanceof JumpInsnNode) {
                next.add(follow(state.place(), successors[i], refined(state.place(), after, i == 1)));
            } else if (decided < 0 || decided == i) {
                next.add(follow(state.place(), successors[i], decided < 0 && successors.length > 1 ? new Frame<>(after) : after));
            }
        }
        next.removeIf(java.util.Objects::isNull);
        state.next = next;
    }

    /** Returns the state of a place to which another leads. A frame within a loop with a limit has the number of passes that are left. */
    private State follow(int from, int to, Frame<AbstractValue> frame) throws UnboundedLoopException, AnalyzerException {
        for (int i = 0; i < limits.size(); i++) {
            Loop loop = limits.get(i).loop();
            int local = graph.method().maxLocals + i;
            if (to == loop.head()) {
                AbstractValue left = frame.getLocal(local);
                frame.setLocal(local, loop.body().get(from) ? left.plus(-1, -1) : passes(limits.get(i), frame));
            } else if (!loop.body().get(to)) {
                frame.setLocal(local, AbstractValue.unknown(1));
            }
        }
        return enter(to, frame);
    }

    private AbstractValue passes(PassLimit limit, Frame<AbstractValue> frame) {
        int passes = limit.passes().applyAsInt(frame);
        if (passes > MOST_STATES) {
            unlimited.put(limit.loop().head(), limit.isSignedShift() ? UnboundedLoopException.Reason.MAY_BE_NEGATIVE
                : UnboundedLoopException.Reason.UNKNOWN_LIMIT);
            return AbstractValue.unknown(1);
        }
        return AbstractValue.constant(passes);
    }

    /** Returns whether a test stays in a loop that has had as many passes as its limit says. */
    private boolean isPastLimit(State state, int successor) {
        for (int i = 0; i < limits.size(); i++) {
            PassLimit limit = limits.get(i);
            if (limit.test() == state.place() && limit.stays() == successor && isZero(state.frame.getLocal(graph.method().maxLocals + i))) {
                return true;
            }
        }
        return false;
    }

    private static boolean isZero(AbstractValue value) {
        return value.isConstant() && value.low() == 0;
    }

    /** Returns the state that a run comes to which goes on past the limit of a loop. */
    private State guard(State test) {
        return states.computeIfAbsent(new State.Key(test.place(), List.of(State.GUARD)), key -> {
            State guard = new State(key, states.size(), new InsnNode(ATHROW), test.frame);
            byNumber.add(guard);
            return guard;
        });
    }

    /** Returns what is known after a test, on the branch on which it is true or on the other. */
    private Frame<AbstractValue> refined(int place, Frame<AbstractValue> after, boolean holds) {
        Frame<AbstractValue> way = new Frame<>(after);
        refinement.narrow(place, way, holds);
        return way;
    }

    /** Returns whether a state throws since it reads or writes an element that the array doesn't have. */
    static boolean isBeyondArray(State state) {
        int below = switch (state.opcode()) {
            case IALOAD, LALOAD, AALOAD -> 0;
            case IASTORE, LASTORE -> 1;
            default -> -1;
        };
        if (below < 0 || !(state.operand(below + 1).fact() instanceof AbstractValue.Array array)) {
            return false;
        }
        AbstractValue index = state.operand(below);
        return index.high() < 0 || index.low() >= array.most();
    }

    private static Object result(State state, Frame<AbstractValue> after) {
        boolean mayThrow = state.opcode() == ARRAYLENGTH && !isPresent(state.operand(0));
        if (after.getStackSize() == 0 || mayThrow || !Purity.isPure(state.instruction())) {
            return null;
        }
        AbstractValue top = after.getStack(after.getStackSize() - 1);
        return top.isConstant() ? top.fact() : null;
    }

    /** Returns whether a value is a non-null array. */
    static boolean isPresent(AbstractValue value) {
        return value.fact() instanceof AbstractValue.Array array && array.isPresent();
    }

    /** Returns the state of a place with this frame. The state owns the frame from then on. */
    private State enter(int place, Frame<AbstractValue> frame) throws UnboundedLoopException, AnalyzerException {
        List<Object> values = new ArrayList<>(counters[place].length);
        for (int local : counters[place]) {
            AbstractValue value = frame.getLocal(local);
            values.add(value.isNarrow() ? value.fact() : "");
        }
        State.Key key = new State.Key(place, values);
        State state = states.get(key);
        if (state == null) {
            if (states.size() >= MOST_STATES) {
                throw new UnboundedLoopException(Map.of(mostCopiedLine(), UnboundedLoopException.Reason.TOO_MANY));
            }
            state = new State(key, states.size(), graph.instruction(place), frame);
            states.put(key, state);
            byNumber.add(state);
            open.add(state);
        } else {
            if (merge(state, frame)) {
                state.merges++;
                open.add(state);
            }
        }
        return state;
    }

    /**
     * Adds what is known on another path to a state. Returns whether less is known of it now.
     *
     * <p>After some merges a value is widened to an unknown one, so that the propagation ends soon. A local that no loop around the state writes isn't:
     * its range can't grow with the passes.
     */
    private boolean merge(State state, Frame<AbstractValue> frame) {
        boolean widens = state.merges >= MERGES_BEFORE_WIDENING;
        boolean changed = false;
        for (int local = 0; local < frame.getLocals(); local++) {
            AbstractValue old = state.frame.getLocal(local);
            AbstractValue now = old.merged(frame.getLocal(local), widens && graph.isWrittenAround(state.place(), local));
            changed |= !now.equals(old);
            state.frame.setLocal(local, now);
        }
        for (int operand = 0; operand < frame.getStackSize(); operand++) {
            AbstractValue old = state.frame.getStack(operand);
            AbstractValue now = old.merged(frame.getStack(operand), widens);
            changed |= !now.equals(old);
            state.frame.setStack(operand, now);
        }
        return changed;
    }

    /** Returns the line of the loop whose head has the most copies. */
    private int mostCopiedLine() {
        int[] copies = new int[graph.size()];
        byNumber.forEach(it -> copies[it.place()]++);
        Loop most = null;
        for (Loop loop : graph.loops()) {
            most = most == null || copies[loop.head()] > copies[most.head()] ? loop : most;
        }
        return most == null ? -1 : graph.line(most.head());
    }

    private void arrange() throws UnboundedLoopException {
        int[] place = new int[byNumber.size()];
        for (int number : Postorder.reversed(byNumber.size(), it -> byNumber.get(it).next.stream().mapToInt(State::number).toArray())) {
            place[number] = order.size();
            order.add(byNumber.get(number));
        }
        Map<Integer, UnboundedLoopException.Reason> endless = new TreeMap<>();
        for (State state : order) {
            for (State next : state.next) {
                if (place[next.number()] <= place[state.number()]) {
                    UnboundedLoopException.Reason reason = unlimited.getOrDefault(next.place(), UnboundedLoopException.Reason.NO_COUNTER);
                    endless.merge(graph.line(next.place()), reason, (a, b) -> a);
                }
            }
        }
        if (!endless.isEmpty()) {
            throw new UnboundedLoopException(endless);
        }
    }
}
