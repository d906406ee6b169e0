package jentry.compiler.compare;

import java.util.ArrayDeque;
import java.util.ArrayList;
import java.util.Collections;
import java.util.Deque;
import java.util.EnumSet;
import java.util.IdentityHashMap;
import java.util.List;
import java.util.Set;
import java.util.TreeSet;
import org.objectweb.asm.Opcodes;
import org.objectweb.asm.tree.AbstractInsnNode;
import org.objectweb.asm.tree.ClassNode;
import org.objectweb.asm.tree.MethodNode;
import org.objectweb.asm.tree.TypeInsnNode;
import jentry.compiler.profile.Instructions;
import jentry.compiler.profile.Members;
import jentry.compiler.rewrite.ValueSources;

/** The kinds of boxes that a processor's code casts each of its arguments to, or tests it for. */
final class ArgumentKinds implements Opcodes {
    /** A kind of argument. */
    enum Kind { LONG, INTEGER, BOOLEAN }

    /** The maximum number of arguments of an invocation. */
    static final int MOST_ARGUMENTS = 8;

    private static final Set<Integer> ALL = Set.of(0, 1, 2, 3, 4, 5, 6, 7);

    private final ClassNode owner;
    private final ValueSources sources;
    private final List<Set<Kind>> kinds = new ArrayList<>();
    private int count;

    /**
     * Reads the casts of a processor.
     *
     * @param source the class name, and for a lambda also `#` and the name and descriptor of its body
     */
    ArgumentKinds(ClassNode owner, String source) {
        this.owner = owner;
        sources = new ValueSources(owner);
        for (int i = 0; i < MOST_ARGUMENTS; i++) {
            kinds.add(EnumSet.noneOf(Kind.class));
        }
        for (MethodNode method : reached(source)) {
            for (AbstractInsnNode at : method.instructions) {
                look(method, at);
            }
        }
    }

    /** Returns how many arguments the code reads: all eight if one of its indices isn't a constant. */
    int count() {
        return count;
    }

    /** Returns the kinds that an argument is cast to; none if the code takes any or doesn't cast it. */
    Set<Kind> of(int argument) {
        return kinds.get(argument);
    }

    private Set<MethodNode> reached(String source) {
        String body = source.substring(source.indexOf('#') + 1);
        boolean isLambda = source.indexOf('#') >= 0;
        Set<MethodNode> reached = Collections.newSetFromMap(new IdentityHashMap<>());
        Deque<MethodNode> open = new ArrayDeque<>();
        owner.methods.stream().filter(it -> isLambda ? body.equals(it.name + it.desc) : it.name.equals("process")).forEach(open::add);
        while (!open.isEmpty()) {
            MethodNode method = open.poll();
            if (reached.add(method)) {
                for (AbstractInsnNode at : method.instructions) {
                    MethodNode callee = Instructions.callee(owner, at);
                    if (callee != null) {
                        open.add(callee);
                    }
                }
            }
        }
        return reached;
    }

    private void look(MethodNode method, AbstractInsnNode at) {
        if (at.getOpcode() == AALOAD) {
            indices(method, at).forEach(it -> count = Math.max(count, it + 1));
        } else if (at.getOpcode() == CHECKCAST || at.getOpcode() == INSTANCEOF) {
            Kind kind = kind(((TypeInsnNode) at).desc);
            if (kind != null) {
                sources.of(method, at, 0).stream().filter(it -> it.getOpcode() == AALOAD).forEach(it -> add(it, kind));
            }
        }
    }

    private static Kind kind(String type) {
        return switch (type) {
            case "java/lang/Long" -> Kind.LONG;
            case "java/lang/Integer" -> Kind.INTEGER;
            case Members.BOOLEAN -> Kind.BOOLEAN;
            default -> null;
        };
    }

    private void add(AbstractInsnNode load, Kind kind) {
        indices(methodOf(load), load).forEach(it -> kinds.get(it).add(kind));
    }

    /** Returns the indices of an array load: all from 0 to 7 if one of them isn't a constant. */
    private Set<Integer> indices(MethodNode method, AbstractInsnNode load) {
        Set<Integer> indices = new TreeSet<>();
        for (AbstractInsnNode index : sources.of(method, load, 0)) {
            if (!(Instructions.pushed(index) instanceof Integer number)) {
                return ALL;
            } else if (number >= 0 && number < MOST_ARGUMENTS) {
                indices.add(number);
            }
        }
        return indices;
    }

    private MethodNode methodOf(AbstractInsnNode at) {
        return owner.methods.stream().filter(it -> it.instructions.contains(at)).findFirst().orElseThrow();
    }
}
