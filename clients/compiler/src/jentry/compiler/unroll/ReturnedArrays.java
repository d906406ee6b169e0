package jentry.compiler.unroll;

import java.util.HashMap;
import java.util.HashSet;
import java.util.Map;
import java.util.Set;
import org.objectweb.asm.Opcodes;
import org.objectweb.asm.Type;
import org.objectweb.asm.tree.AbstractInsnNode;
import org.objectweb.asm.tree.ClassNode;
import org.objectweb.asm.tree.MethodNode;
import org.objectweb.asm.tree.VarInsnNode;
import jentry.compiler.profile.Instructions;
import jentry.compiler.rewrite.ValueSources;

/** The lengths of the arrays that methods return, where each is made with a constant length, or with one place for each argument. */
final class ReturnedArrays implements Opcodes {
    private final ValueSources sources;

    /** The instructions that read the number of arguments. */
    private final Set<AbstractInsnNode> counts = new HashSet<>();

    private ReturnedArrays(ClassNode owner) {
        sources = new ValueSources(owner);
        owner.methods.forEach(this::addCounts);
    }

    /** Returns what is known of the results of methods, by name and descriptor. */
    static Map<String, AbstractValue> of(ClassNode owner) {
        ReturnedArrays arrays = new ReturnedArrays(owner);
        Map<String, AbstractValue> returned = new HashMap<>();
        for (MethodNode method : owner.methods) {
            if (method.desc.endsWith(")[I") || method.desc.endsWith(")[J")) {
                AbstractValue all = null;
                for (AbstractInsnNode at : method.instructions) {
                    if (at.getOpcode() == ARETURN) {
                        AbstractValue one = arrays.result(method, at);
                        all = all == null ? one : all.or(one);
                    }
                }
                if (all != null && all.fact() != null) {
                    returned.put(method.name + method.desc, all);
                }
            }
        }
        return returned;
    }

    /** Adds the lengths of parameters that are arrays of objects, which only the arguments are, and that aren't written. */
    private void addCounts(MethodNode method) {
        Set<Integer> unwritten = new HashSet<>();
        int local = Instructions.isStatic(method) ? 0 : 1;
        for (Type type : Type.getArgumentTypes(method.desc)) {
            if (type.getDescriptor().equals("[Ljava/lang/Object;")) {
                unwritten.add(local);
            }
            local += type.getSize();
        }
        for (AbstractInsnNode at : method.instructions) {
            if (at.getOpcode() == ASTORE) {
                unwritten.remove(((VarInsnNode) at).var);
            }
        }
        for (AbstractInsnNode at : method.instructions) {
            boolean isCount = at.getOpcode() == ARRAYLENGTH && Instructions.previous(at) instanceof VarInsnNode load && unwritten.contains(load.var);
            if (isCount) {
                counts.add(at);
            }
        }
    }

    private AbstractValue result(MethodNode method, AbstractInsnNode at) {
        if (!sources.isMadeBy(method, at, 0, it -> isOfKnownLength(it) || isForArguments(it))) {
            return AbstractValue.unknown(1);
        }
        AbstractValue all = null;
        for (AbstractInsnNode made : sources.of(method, at, 0)) {
            AbstractValue one = isForArguments(made) ? AbstractValue.array(0, ConstantPropagation.MOST_ARGUMENTS, true)
                : AbstractValue.array(length(made), length(made), true);
            all = all == null ? one : all.or(one);
        }
        return all;
    }

    private static boolean isOfKnownLength(AbstractInsnNode at) {
        return at.getOpcode() == NEWARRAY && Instructions.pushed(Instructions.previous(at)) instanceof Integer length && length >= 0;
    }

    /** Returns whether the length is the number of arguments. Hidden ones, which are in front of the author's, are subtracted. */
    private boolean isForArguments(AbstractInsnNode at) {
        AbstractInsnNode length = at.getOpcode() == NEWARRAY ? Instructions.previous(at) : null;
        boolean isLess = length != null && length.getOpcode() == ISUB && Instructions.pushed(Instructions.previous(length)) instanceof Integer less && less >= 0;
        return counts.contains(isLess ? Instructions.previous(Instructions.previous(length)) : length);
    }

    private static int length(AbstractInsnNode at) {
        return (Integer) Instructions.pushed(Instructions.previous(at));
    }
}
