package jentry.compiler.link;

import java.util.ArrayList;
import java.util.HashMap;
import java.util.IdentityHashMap;
import java.util.LinkedHashSet;
import java.util.List;
import java.util.Map;
import java.util.Set;
import org.objectweb.asm.Opcodes;
import org.objectweb.asm.Type;
import org.objectweb.asm.tree.AbstractInsnNode;
import org.objectweb.asm.tree.ClassNode;
import org.objectweb.asm.tree.FieldInsnNode;
import org.objectweb.asm.tree.IincInsnNode;
import org.objectweb.asm.tree.InsnList;
import org.objectweb.asm.tree.InsnNode;
import org.objectweb.asm.tree.JumpInsnNode;
import org.objectweb.asm.tree.LabelNode;
import org.objectweb.asm.tree.MethodInsnNode;
import org.objectweb.asm.tree.MethodNode;
import org.objectweb.asm.tree.TypeInsnNode;
import org.objectweb.asm.tree.VarInsnNode;
import org.objectweb.asm.tree.analysis.BasicValue;
import org.objectweb.asm.tree.analysis.Frame;
import jentry.compiler.profile.CallGraph;
import jentry.compiler.profile.Instructions;
import jentry.compiler.profile.ProblemException;

/**
 * Passes the values of static fields as arguments in front of the author's: `process` reads them, and hands them on to the methods that use them.
 *
 * <p>The author's code goes on to see its own arguments: indices are moved, and the length is that of what the author passed. The only Object[] of a
 * class that the server accepts is that of the arguments.
 */
final class HiddenArguments implements Opcodes {
    private final ClassNode owner;
    private final Set<String> names;
    private final MethodNode process;
    private final Map<MethodNode, List<FieldInsnNode>> uses = new IdentityHashMap<>();

    /**
     * Creates the pass.
     *
     * @param names the fields whose values are passed
     * @param process the method that reads them; it only calls another one
     */
    HiddenArguments(ClassNode owner, Set<String> names, MethodNode process) {
        this.owner = owner;
        this.names = names;
        this.process = process;
    }

    /** Replaces the reads. Returns the fields in the order of the arguments. */
    List<String> bind() throws ProblemException {
        CallGraph.dropUnused(owner);
        if (names.isEmpty()) {
            return List.of();
        }
        List<MethodNode> methods = CallGraph.of(owner);
        for (int i = methods.size() - 1; i >= 0; i--) {
            uses.put(methods.get(i), usesOf(methods.get(i)));
        }
        List<FieldInsnNode> order = uses.get(process);
        Map<String, MethodNode> callees = new HashMap<>();
        methods.forEach(it -> callees.put(it.name + it.desc, it));
        for (MethodNode method : methods) {
            replace(method, callees, order);
        }
        for (MethodNode method : methods) {
            if (method != process) {
                method.desc = descriptor(method.desc, uses.get(method));
                shift(method, order.size());
            }
        }
        return names(order);
    }

    private static List<String> names(List<FieldInsnNode> fields) {
        return fields.stream().map(it -> it.name).toList();
    }

    /** Returns the fields that a method reads, itself or by the methods that it calls. */
    private List<FieldInsnNode> usesOf(MethodNode method) {
        Map<String, FieldInsnNode> all = new java.util.LinkedHashMap<>();
        for (AbstractInsnNode at : method.instructions) {
            if (isRead(at)) {
                all.putIfAbsent(((FieldInsnNode) at).name, (FieldInsnNode) at);
            }
            MethodNode callee = Instructions.callee(owner, at);
            if (callee != null) {
                uses.get(callee).forEach(it -> all.putIfAbsent(it.name, it));
            }
        }
        return new ArrayList<>(new LinkedHashSet<>(all.values()));
    }

    private boolean isRead(AbstractInsnNode at) {
        return at.getOpcode() == GETSTATIC && at instanceof FieldInsnNode field && field.owner.equals(owner.name) && names.contains(field.name);
    }

    private static String descriptor(String descriptor, List<FieldInsnNode> more) {
        List<Type> types = new ArrayList<>(List.of(Type.getArgumentTypes(descriptor)));
        more.forEach(it -> types.add(Type.getType(it.desc)));
        return Type.getMethodDescriptor(Type.getReturnType(descriptor), types.toArray(new Type[0]));
    }

    private void replace(MethodNode method, Map<String, MethodNode> callees, List<FieldInsnNode> order) {
        Map<String, Integer> locals = new HashMap<>();
        int added = 0;
        if (method != process) {
            int first = (Type.getArgumentsAndReturnSizes(method.desc) >> 2) - 1;
            for (FieldInsnNode field : uses.get(method)) {
                locals.put(field.name, first + added);
                added += Type.getType(field.desc).getSize();
            }
            moveLocals(method, first, added);
        }
        for (AbstractInsnNode at : method.instructions.toArray()) {
            if (isRead(at)) {
                FieldInsnNode field = (FieldInsnNode) at;
                method.instructions.set(at, new VarInsnNode(Type.getType(field.desc).getOpcode(ILOAD), locals.get(field.name)));
            } else if (at instanceof MethodInsnNode call && call.owner.equals(owner.name) && callees.containsKey(call.name + call.desc)) {
                List<FieldInsnNode> more = uses.get(callees.get(call.name + call.desc));
                for (FieldInsnNode field : more) {
                    method.instructions.insertBefore(at, method == process ? read(field, names(order).indexOf(field.name))
                        : load(field, locals.get(field.name)));
                    method.maxStack += 2;
                }
                call.desc = descriptor(call.desc, more);
            }
        }
    }

    private static void moveLocals(MethodNode method, int first, int by) {
        for (AbstractInsnNode at : method.instructions) {
            if (at instanceof VarInsnNode it && it.var >= first) {
                it.var += by;
            } else if (at instanceof IincInsnNode it && it.var >= first) {
                it.var += by;
            }
        }
        method.maxLocals += by;
    }

    private static InsnList load(FieldInsnNode field, int local) {
        InsnList code = new InsnList();
        code.add(new VarInsnNode(Type.getType(field.desc).getOpcode(ILOAD), local));
        return code;
    }

    /** Returns the code that reads an argument as a value of the field's type. */
    private static InsnList read(FieldInsnNode field, int index) {
        InsnList code = new InsnList();
        code.add(new VarInsnNode(ALOAD, 2));
        code.add(Instructions.push(index));
        code.add(new InsnNode(AALOAD));
        if (field.desc.equals("J")) {
            code.add(new TypeInsnNode(CHECKCAST, "java/lang/Long"));
            code.add(new MethodInsnNode(INVOKEVIRTUAL, "java/lang/Long", "longValue", "()J", false));
        } else if (field.desc.length() == 1) {
            code.add(new TypeInsnNode(CHECKCAST, "java/lang/Integer"));
            code.add(new MethodInsnNode(INVOKEVIRTUAL, "java/lang/Integer", "intValue", "()I", false));
        } else {
            code.add(new TypeInsnNode(CHECKCAST, Type.getType(field.desc).getInternalName()));
        }
        return code;
    }

    // ---- the author's arguments

    private void shift(MethodNode method, int count) {
        Frame<BasicValue>[] frames = KnownValues.of(owner, method, KnownValues.Places.NONE, List.of());
        AbstractInsnNode[] all = method.instructions.toArray();
        for (int i = 0; i < all.length; i++) {
            if (frames[i] == null) {
                continue;
            } else if (all[i].getOpcode() == AALOAD) {
                method.instructions.insertBefore(all[i], index(Instructions.pushed(all[i].getPrevious()), count));
            } else if (all[i].getOpcode() == ARRAYLENGTH && isOfObjects(frames[i].getStack(frames[i].getStackSize() - 1))) {
                method.instructions.insert(all[i], new InsnNode(ISUB));
                method.instructions.insert(all[i], Instructions.push(count));
            }
        }
        method.maxStack += 2;
    }

    private static boolean isOfObjects(BasicValue array) {
        return array.getType() != null && array.getType().getDescriptor().startsWith("[L");
    }

    /** Returns the code that moves an index. A negative one stays as it is, so that it leads to nothing. */
    private static InsnList index(Object constant, int count) {
        InsnList code = new InsnList();
        boolean isKnown = constant instanceof Integer it && it >= 0;
        LabelNode negative = new LabelNode();
        if (!isKnown) {
            code.add(new InsnNode(DUP));
            code.add(new JumpInsnNode(IFLT, negative));
        }
        code.add(Instructions.push(count));
        code.add(new InsnNode(IADD));
        if (!isKnown) {
            code.add(negative);
        }
        return code;
    }
}
