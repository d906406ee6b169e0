package jentry.compiler.link;

import java.lang.reflect.Array;
import java.util.HashMap;
import java.util.Map;
import org.objectweb.asm.Opcodes;
import org.objectweb.asm.tree.AbstractInsnNode;
import org.objectweb.asm.tree.ClassNode;
import org.objectweb.asm.tree.FieldInsnNode;
import org.objectweb.asm.tree.FieldNode;
import org.objectweb.asm.tree.MethodNode;
import jentry.compiler.profile.Instructions;
import jentry.compiler.profile.Problem;
import jentry.compiler.rewrite.ArrayWrites;
import jentry.compiler.rewrite.InitialValues;
import jentry.compiler.rewrite.ValueSources;

/** The values of static final fields. */
final class Statics implements Opcodes {
    private static final String SWITCH = "$SwitchMap$";

    private final Classes classes;
    private final Map<String, Boolean> isFree = new HashMap<>();
    private final Map<String, InitialValues> followed = new HashMap<>();
    private final Map<String, Map<String, Problem>> writes = new HashMap<>();

    Statics(Classes classes) {
        this.classes = classes;
    }

    /** Returns the value of a static final field: what reflection would return. Returns null if the value isn't known, or is null. */
    Object value(String owner, FieldNode field) {
        if ((field.access & ACC_FINAL) == 0) {
            return null;
        } else if (field.value != null) {
            return field.desc.equals("Z") ? (Object) (((Integer) field.value) != 0) : field.value;
        } else if (field.name.startsWith(SWITCH)) {
            return switchMap(owner, field.name);
        }
        return current(owner, field);
    }

    private Object current(String owner, FieldNode field) {
        Class<?> type = isReadable(owner) ? classes.program().load(owner) : null;
        if (type == null) {
            return followed.computeIfAbsent(owner, it -> new InitialValues(classes.get(it))).of(field);
        }
        try {
            return HeldValues.read(type, null, owner, field.name);
        } catch (IllegalArgumentException | LinkageError e) {
            return null;
        }
    }

    private boolean isReadable(String owner) {
        return classes.program().isRunning() || isFree.computeIfAbsent(owner, it -> Effects.isFree(classes, it));
    }

    /** Returns the numbers that the constants of an enum have in a field, as int[] or long[]; null if they aren't known. */
    Object ofConstants(String owner, FieldNode field) {
        boolean isLong = field.desc.equals("J");
        Class<?> type = "ZBSCIJ".contains(field.desc) && isReadable(owner) ? classes.program().load(owner) : null;
        if (type == null) {
            return null;
        }
        Object[] constants = type.getEnumConstants();
        Object table = isLong ? new long[constants.length] : new int[constants.length];
        for (int i = 0; i < constants.length; i++) {
            Object value = HeldValues.read(constants[i].getClass(), constants[i], owner, field.name);
            Array.set(table, i, value instanceof Boolean it ? (Object) (it ? 1 : 0) : value instanceof Character it ? (Object) (int) it : value);
        }
        return table;
    }

    /** Returns the problem that a class may write to an array of its own, by the field itself or by another one that holds the array; or null. */
    Problem write(ClassNode owner, Object array) {
        for (Map.Entry<String, Problem> write : writes.computeIfAbsent(owner.name, it -> ArrayWrites.of(owner)).entrySet()) {
            FieldNode field = owner.fields.stream().filter(it -> it.name.equals(write.getKey())).findFirst().orElse(null);
            Object other = field == null || (field.access & ACC_STATIC) == 0 ? null : current(owner.name, field);
            if (other == null || other == array) {
                return write.getValue();
            }
        }
        return null;
    }

    /** Returns whether a method of a class writes to an element of an array of arrays. */
    boolean writesElements(ClassNode owner) {
        ValueSources sources = new ValueSources(owner);
        for (MethodNode method : owner.methods) {
            for (AbstractInsnNode at : method.instructions) {
                boolean writes = at.getOpcode() >= IASTORE && at.getOpcode() <= SASTORE && !method.name.equals("<clinit>");
                if (writes && sources.of(method, at, 2).stream().anyMatch(it -> it.getOpcode() == GETSTATIC || readsStaticRow(sources, method, it))) {
                    return true;
                }
            }
        }
        return false;
    }

    private static boolean readsStaticRow(ValueSources sources, MethodNode method, AbstractInsnNode made) {
        return made.getOpcode() == AALOAD && (!method.instructions.contains(made)
            || sources.of(method, made, 1).stream().anyMatch(it -> it.getOpcode() != MULTIANEWARRAY));
    }

    /** Returns javac's table for a switch of an enum: the number of the case, by ordinal. */
    private int[] switchMap(String owner, String name) {
        MethodNode initialiser = Instructions.method(classes.get(owner), "<clinit>", "()V");
        int[] table = null;
        for (AbstractInsnNode at : initialiser.instructions) {
            boolean reads = at.getOpcode() == GETSTATIC && ((FieldInsnNode) at).name.equals(name);
            AbstractInsnNode constant = reads ? Instructions.next(at) : null;
            if (constant instanceof FieldInsnNode of) {
                int ordinal = ordinal(of.owner, of.name);
                AbstractInsnNode number = Instructions.next(Instructions.next(constant));
                table = table != null ? table : new int[count(of.owner)];
                if (ordinal < 0 || !(Instructions.pushed(number) instanceof Integer it)) {
                    return null;
                }
                table[ordinal] = it;
            }
        }
        return table;
    }

    /** Returns the ordinal of a constant of an enum, or -1. */
    int ordinal(String owner, String name) {
        int ordinal = 0;
        if (classes.get(owner) == null) {
            return platformOrdinal(owner, name);
        }
        for (FieldNode field : classes.get(owner).fields) {
            if ((field.access & ACC_ENUM) != 0) {
                if (field.name.equals(name)) {
                    return ordinal;
                }
                ordinal++;
            }
        }
        return -1;
    }

    private static int platformOrdinal(String owner, String name) {
        try {
            for (Object constant : Class.forName(owner.replace('/', '.')).getEnumConstants()) {
                if (((Enum<?>) constant).name().equals(name)) {
                    return ((Enum<?>) constant).ordinal();
                }
            }
        } catch (ClassNotFoundException e) {
            throw new IllegalStateException(e);
        }
        return -1;
    }

    /** Returns the number of constants of an enum. */
    int count(String owner) {
        if (classes.get(owner) == null) {
            try {
                return Class.forName(owner.replace('/', '.')).getEnumConstants().length;
            } catch (ClassNotFoundException e) {
                throw new IllegalStateException(e);
            }
        }
        return (int) classes.get(owner).fields.stream().filter(it -> (it.access & ACC_ENUM) != 0).count();
    }
}
