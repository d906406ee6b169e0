package jentry.compiler.link;

import java.util.ArrayList;
import java.util.IdentityHashMap;
import java.util.List;
import java.util.Map;
import java.util.Set;
import org.objectweb.asm.Handle;
import org.objectweb.asm.Opcodes;
import org.objectweb.asm.Type;
import org.objectweb.asm.tree.AbstractInsnNode;
import org.objectweb.asm.tree.InsnList;
import org.objectweb.asm.tree.InsnNode;
import org.objectweb.asm.tree.InvokeDynamicInsnNode;
import org.objectweb.asm.tree.MethodInsnNode;
import org.objectweb.asm.tree.MethodNode;
import org.objectweb.asm.tree.VarInsnNode;
import org.objectweb.asm.tree.analysis.BasicValue;
import jentry.compiler.profile.ProblemException;

/**
 * Writes streams of numbers as loops: a range or an array, stages that map and filter, and an end that gives a number.
 *
 * <p>What a stream begins with, and what its lambdas capture, is kept in locals; the end calls a method that has the loop.
 */
final class Streams implements Opcodes {
    private static final Map<String, String> SOURCES = Map.of("java/util/stream/LongStream.range(JJ)", "J", "java/util/stream/LongStream.rangeClosed(JJ)", "J",
        "java/util/stream/IntStream.range(II)", "I", "java/util/stream/IntStream.rangeClosed(II)", "I", "java/util/stream/LongStream.of([J)", "J",
        "java/util/stream/IntStream.of([I)", "I", "java/util/Arrays.stream([J)", "J", "java/util/Arrays.stream([I)", "I",
        "java/util/Arrays.stream([Ljava/lang/Object;)", "A", "java/util/stream/Stream.of([Ljava/lang/Object;)", "A");
    private static final Map<String, String> MAPS = Map.of("mapToLong", "J", "mapToInt", "I", "mapToObj", "A");
    private static final Set<String> ENDS = Set.of("sum", "count", "anyMatch", "allMatch", "noneMatch", "reduce");
    private static final Set<String> OPTIONAL_ENDS = Set.of("min", "max", "findFirst", "findAny");

    /** A lambda, and the places of what it captures. */
    record Lambda(InvokeDynamicInsnNode site, List<Known.Place> captured) implements Known.Place {
        Handle body() {
            return (Handle) site.bsmArgs[1];
        }

        @Override
        public String type() {
            return null;
        }
    }

    /**
     * A stage of a stream.
     *
     * @param element the kind of its elements behind it: J, I, or A for objects
     */
    record Stage(String name, Lambda lambda, String element) { }

    /** A stream. */
    record Flow(MethodInsnNode source, String element, List<Stage> stages) implements Known.Place {
        @Override
        public String type() {
            return null;
        }
    }

    /** The optional result of a stream. */
    record Found(Flow flow, String name) implements Known.Place {
        @Override
        public String type() {
            return null;
        }
    }

    private final Linker linker;
    private final MethodNode copy;
    private final Map<AbstractInsnNode, Integer> locals = new IdentityHashMap<>();

    Streams(Linker linker, MethodNode copy) {
        this.linker = linker;
        this.copy = copy;
    }

    /** Returns whether a call begins a stream. */
    static boolean begins(AbstractInsnNode at) {
        return at instanceof MethodInsnNode call && SOURCES.containsKey(call.owner + "." + call.name + call.desc.substring(0, call.desc.indexOf(')') + 1));
    }

    /** Returns the place of a lambda of Java's function types, or null. */
    static Known.Place lambda(InvokeDynamicInsnNode at, List<? extends BasicValue> captured) {
        boolean isFunction = Type.getReturnType(at.desc).getInternalName().startsWith("java/util/function/") && at.bsmArgs.length > 1
            && at.bsmArgs[1] instanceof Handle;
        return isFunction ? new Lambda(at, java.util.Collections.unmodifiableList(FoundPlaces.places(captured))) : null;
    }

    /** Returns the stream, or the optional result, that a call gives, or null. */
    static Known.Place place(MethodInsnNode at, List<? extends BasicValue> operands) {
        if (begins(at)) {
            return new Flow(at, SOURCES.get(at.owner + "." + at.name + at.desc.substring(0, at.desc.indexOf(')') + 1)), List.of());
        }
        Flow flow = !operands.isEmpty() && Known.place(operands.get(0)) instanceof Flow it ? it : null;
        if (flow == null) {
            return null;
        } else if (operands.size() == 1) {
            return OPTIONAL_ENDS.contains(at.name) && !flow.element.equals("A") ? new Found(flow, at.name)
                : at.name.equals("asLongStream") ? with(flow, new Stage(at.name, null, "J")) : null;
        }
        boolean hasLambda = operands.size() == 2 && Known.place(operands.get(1)) instanceof Lambda;
        Lambda lambda = hasLambda ? (Lambda) Known.place(operands.get(1)) : null;
        if (lambda == null) {
            return null;
        }
        return at.name.equals("filter") || at.name.equals("map") ? with(flow, new Stage(at.name, lambda, flow.element))
            : MAPS.containsKey(at.name) ? with(flow, new Stage("map", lambda, MAPS.get(at.name))) : null;
    }

    private static Flow with(Flow flow, Stage stage) {
        List<Stage> stages = new ArrayList<>(flow.stages);
        stages.add(stage);
        return new Flow(flow.source, stage.element, List.copyOf(stages));
    }

    /** Adds the code of a call that begins, continues or ends a stream. Returns whether it does. */
    boolean replace(MethodInsnNode at, List<BasicValue> operands, InsnList code) throws ProblemException {
        Known.Place place = place(at, operands);
        Known.Place receiver = operands.isEmpty() ? null : Known.place(operands.get(0));
        if (begins(at)) {
            keep(at, Type.getArgumentTypes(at.desc), code);
            code.add(new InsnNode(ACONST_NULL));
        } else if (place != null) {
            if (operands.size() == 2) {
                code.add(new InsnNode(POP));
            }
        } else if (isEnd(at, operands)) {
            Flow flow = receiver instanceof Found found ? found.flow : (Flow) receiver;
            end(at, flow, receiver instanceof Found found ? found.name : at.name, operands, code);
        } else {
            return false;
        }
        return true;
    }

    /** Returns whether a call ends a stream. */
    static boolean isEnd(MethodInsnNode at, List<BasicValue> operands) {
        Known.Place receiver = operands.isEmpty() ? null : Known.place(operands.get(0));
        boolean endsFlow = receiver instanceof Flow flow && ENDS.contains(at.name) && (!flow.element.equals("A") || !at.name.equals("reduce"));
        if (endsFlow) {
            int lambdas = operands.stream().mapToInt(it -> Known.place(it) instanceof Lambda ? 1 : 0).sum();
            return at.name.endsWith("Match") ? operands.size() == 2 && lambdas == 1 : at.name.equals("reduce") ? operands.size() == 3 && lambdas == 1
                : operands.size() == 1;
        }
        return receiver instanceof Found && at.name.equals("orElse");
    }

    /** Adds the code of a lambda: what it captures is kept. */
    void lambda(InvokeDynamicInsnNode at, InsnList code) {
        keep(at, Type.getArgumentTypes(at.desc), code);
        code.add(new InsnNode(ACONST_NULL));
    }

    private void keep(AbstractInsnNode at, Type[] types, InsnList code) {
        int local = local(at, types);
        for (Type type : types) {
            local += type.getSize();
        }
        for (int i = types.length - 1; i >= 0; i--) {
            local -= types[i].getSize();
            code.add(new VarInsnNode(linker.representation().of(types[i]).getOpcode(ISTORE), local));
        }
    }

    private int local(AbstractInsnNode at, Type[] types) {
        return locals.computeIfAbsent(at, it -> {
            int first = copy.maxLocals;
            for (Type type : types) {
                copy.maxLocals += type.getSize();
            }
            return first;
        });
    }

    private void load(AbstractInsnNode at, Type[] types, List<Type> loaded, InsnList code) {
        int local = local(at, types);
        for (Type type : types) {
            Type mapped = linker.representation().of(type);
            code.add(new VarInsnNode(mapped.getOpcode(ILOAD), local));
            local += type.getSize();
            loaded.add(mapped);
        }
    }

    private void end(MethodInsnNode at, Flow flow, String name, List<BasicValue> operands, InsnList code) throws ProblemException {
        Lambda last = operands.size() > 1 && Known.place(operands.get(operands.size() - 1)) instanceof Lambda lambda ? lambda : null;
        if (last != null) {
            code.add(new InsnNode(POP));
        }
        boolean hasValue = name.equals("reduce") || at.name.equals("orElse");
        Type[] value = hasValue ? new Type[] {Type.getArgumentTypes(at.desc)[0]} : new Type[0];
        keep(at, value, code);
        code.add(new InsnNode(POP));
        List<Type> types = new ArrayList<>();
        load(flow.source, Type.getArgumentTypes(flow.source.desc), types, code);
        for (Stage stage : flow.stages) {
            if (stage.lambda != null) {
                load(stage.lambda.site, Type.getArgumentTypes(stage.lambda.site.desc), types, code);
            }
        }
        if (last != null) {
            load(last.site, Type.getArgumentTypes(last.site.desc), types, code);
        }
        load(at, value, types, code);
        String descriptor = Type.getMethodDescriptor(Type.getReturnType(at.desc), types.toArray(new Type[0]));
        MethodNode loop = linker.addMethod("stream", descriptor);
        new StreamLoop(linker, loop, flow, name, last).write();
        code.add(new MethodInsnNode(INVOKESTATIC, linker.made().name, loop.name, descriptor, false));
    }
}
