package jentry.compiler.rewrite;

import java.lang.reflect.Array;
import java.util.ArrayList;
import java.util.HashMap;
import java.util.LinkedHashMap;
import java.util.List;
import java.util.Map;
import java.util.Set;
import org.objectweb.asm.Opcodes;
import org.objectweb.asm.tree.AbstractInsnNode;
import org.objectweb.asm.tree.ClassNode;
import org.objectweb.asm.tree.FieldInsnNode;
import org.objectweb.asm.tree.FieldNode;
import org.objectweb.asm.tree.InsnList;
import org.objectweb.asm.tree.InsnNode;
import org.objectweb.asm.tree.IntInsnNode;
import org.objectweb.asm.tree.MethodInsnNode;
import org.objectweb.asm.tree.MethodNode;
import org.objectweb.asm.tree.VarInsnNode;
import jentry.compiler.profile.Instructions;
import jentry.compiler.profile.Problem;
import jentry.compiler.profile.ProblemException;

/**
 * Replaces reads of final fields by their values, if the initialisers can be run at compile time.
 *
 * <p>A number becomes a constant. A boxed number or an array is created in a local at the start of each method that reads it. An array that the class
 * may write to later isn't constant and is refused.
 */
final class FieldConstants implements Opcodes {
    private static final String OBJECT = "java/lang/Object";

    private final ClassNode owner;
    private final Initialisers initialisers;
    private final Map<String, FieldNode> fields = new HashMap<>();
    private final Map<String, Problem> written;
    private final Map<String, Object> values;
    private final Set<String> inlined = new java.util.TreeSet<>();

    private FieldConstants(ClassNode owner, ClassNode host, Map<String, Object> values) {
        this.owner = owner;
        this.values = values;
        owner.fields.forEach(it -> fields.put(it.name, it));
        boolean hasArrays = owner.fields.stream().anyMatch(it -> it.desc.startsWith("["));
        written = hasArrays ? ArrayWrites.of(host != null ? host : owner) : Map.of();
        initialisers = new Initialisers(owner, written.keySet(), host != null);
    }

    /**
     * Runs the initialisers, before any method is removed.
     *
     * @param host the class of a lambda, whose class initialiser may do more than the processor needs; or null
     * @param values the values of fields that the initialisers don't set
     */
    static FieldConstants of(ClassNode owner, ClassNode host, Map<String, Object> values) throws ProblemException {
        FieldConstants constants = new FieldConstants(owner, host, values);
        MethodNode initialiser = Instructions.method(owner, "<clinit>", "()V");
        if (initialiser != null) {
            constants.run(initialiser, "static initialisers may hold numbers, arrays of numbers, and what is computed of them");
        }
        MethodNode constructor = Instructions.method(owner, "<init>", "()V");
        long constructors = owner.methods.stream().filter(it -> it.name.equals("<init>")).count();
        if (constructor != null && constructors == 1 && OBJECT.equals(owner.superName) && Instructions.count(constructor) > 3) {
            constants.run(constructor, "hand what changes over as arguments, and make fields static final");
            constants.plain(constructor);
        }
        return constants;
    }

    private void run(MethodNode method, String remedy) throws ProblemException {
        try {
            initialisers.run(method);
        } catch (Initialisers.UnsupportedException e) {
            String what = method.name.equals("<clinit>") ? "this static initialiser can't be run at compile time: "
                : "this constructor, or the value of a field, can't be run at compile time: ";
            throw new ProblemException(Instructions.problem(owner, method, e.at(), what + e.getMessage(), remedy));
        }
    }

    private void plain(MethodNode constructor) {
        constructor.instructions = new InsnList();
        constructor.tryCatchBlocks.clear();
        constructor.instructions.add(new VarInsnNode(ALOAD, 0));
        constructor.instructions.add(new MethodInsnNode(INVOKESPECIAL, OBJECT, "<init>", "()V", false));
        constructor.instructions.add(new InsnNode(RETURN));
        constructor.localVariables = null;
    }

    /** Replaces the reads and removes the class initialiser. Returns the names of the fields. */
    Set<String> inline() throws ProblemException {
        owner.methods.removeIf(it -> it.name.equals("<clinit>"));
        for (MethodNode method : owner.methods) {
            if (!method.name.equals("<init>")) {
                inline(method);
            }
        }
        return inlined;
    }

    private void inline(MethodNode method) throws ProblemException {
        InsnList start = new InsnList();
        Map<String, Integer> locals = new LinkedHashMap<>();
        for (AbstractInsnNode at : method.instructions.toArray()) {
            if (!(at instanceof FieldInsnNode field) || !field.owner.equals(owner.name)) {
                continue;
            }
            Object value = value(method, field);
            inlined.add(field.name);
            if (at.getOpcode() == GETFIELD) {
                dropReceiver(method, at);
            }
            if (value instanceof Integer || value instanceof Long) {
                method.instructions.set(at, Instructions.push(value));
            } else if (value == Initialisers.NULL) {
                method.instructions.set(at, new InsnNode(ACONST_NULL));
            } else {
                if (!locals.containsKey(field.name)) {
                    locals.put(field.name, method.maxLocals++);
                    make(value).forEach(start::add);
                    start.add(new VarInsnNode(ASTORE, locals.get(field.name)));
                }
                method.instructions.set(at, new VarInsnNode(ALOAD, locals.get(field.name)));
            }
        }
        if (start.size() > 0) {
            method.maxStack = Math.max(method.maxStack, 5);
            method.instructions.insert(start);
        }
    }

    /** Returns the constant value of a field. */
    private Object value(MethodNode method, FieldInsnNode at) throws ProblemException {
        FieldNode field = fields.get(at.name);
        boolean isStatic = at.getOpcode() == GETSTATIC || at.getOpcode() == PUTSTATIC;
        String what = (isStatic ? "the static field " : "the field ") + at.name;
        if (at.getOpcode() == PUTSTATIC || at.getOpcode() == PUTFIELD) {
            throw problem(method, at, what + " is written", "use locals, arguments or the entry's value: a processor keeps nothing between its runs");
        } else if (field == null) {
            throw problem(method, at, what + " is inherited", "declare it in the class itself");
        } else if ((field.access & ACC_FINAL) == 0) {
            throw problem(method, at, what + " isn't final", "make it final where it never changes; else use an argument or the entry's value");
        }
        Object value = value(field);
        if (value == null && !isStatic && owner.methods.stream().anyMatch(it -> it.name.equals("<init>") && !it.desc.equals("()V"))) {
            throw problem(method, at, what + " is set by a constructor that takes values from outside", "hand it over as an argument of the call");
        } else if (value == null) {
            throw problem(method, at, what + " has a value that isn't known at compile time", "use numbers, and arrays of int or long");
        } else if (!isStatic && !readsSelf(method, at)) {
            throw problem(method, at, what + " of another object is read", "read the fields of the processor itself, or make them static final");
        } else if (value instanceof int[] || value instanceof long[]) {
            refuseWritten(value);
        }
        return value;
    }

    private Object value(FieldNode field) {
        return values.containsKey(field.name) ? given(field, values.get(field.name)) : initialisers.value(field);
    }

    /** Returns a given value in the form of the initialisers. */
    private static Object given(FieldNode field, Object value) {
        if (value == null) {
            return Initialisers.NULL;
        } else if (value.getClass().isArray()) {
            return value instanceof long[] ? value : ints(value);
        }
        Object number = value instanceof Boolean it ? (Object) (it ? 1 : 0) : value instanceof Character it ? (Object) (int) it
            : value instanceof Short || value instanceof Byte ? (Object) ((Number) value).intValue() : value;
        return field.desc.startsWith("L") ? new Initialisers.Box((Number) number) : number;
    }

    private static int[] ints(Object array) {
        int[] all = new int[Array.getLength(array)];
        for (int i = 0; i < all.length; i++) {
            Object element = Array.get(array, i);
            all[i] = element instanceof Boolean it ? it ? 1 : 0 : element instanceof Character it ? it : ((Number) element).intValue();
        }
        return all;
    }

    private ProblemException problem(MethodNode method, AbstractInsnNode at, String what, String remedy) {
        return new ProblemException(Instructions.problem(owner, method, at, what, remedy));
    }

    private boolean readsSelf(MethodNode method, AbstractInsnNode at) {
        Origin receiver = new ValueSources(owner).origin(method, at, 0);
        return receiver == null || !Instructions.isStatic(method) && receiver.sources().equals(Set.of(new Origin.Parameter(0)));
    }

    private static void dropReceiver(MethodNode method, AbstractInsnNode at) {
        AbstractInsnNode before = at.getPrevious();
        if (before.getOpcode() == ALOAD) {
            method.instructions.remove(before);
        } else {
            method.instructions.insertBefore(at, new InsnNode(POP));
        }
    }

    private static List<AbstractInsnNode> make(Object value) {
        List<AbstractInsnNode> code = new ArrayList<>();
        if (value instanceof Initialisers.Box box) {
            boolean isLong = box.number() instanceof Long;
            String type = isLong ? "java/lang/Long" : "java/lang/Integer";
            code.add(Instructions.push(box.number()));
            code.add(new MethodInsnNode(INVOKESTATIC, type, "valueOf", "(" + (isLong ? "J" : "I") + ")L" + type + ";", false));
            return code;
        }
        int[] ints = value instanceof int[] it ? it : null;
        long[] longs = value instanceof long[] it ? it : null;
        int length = ints != null ? ints.length : longs.length;
        code.add(Instructions.push(length));
        code.add(new IntInsnNode(NEWARRAY, ints != null ? T_INT : T_LONG));
        for (int i = 0; i < length; i++) {
            Object element = ints != null ? (Object) ints[i] : (Object) longs[i];
            if (((Number) element).longValue() != 0) {
                code.add(new InsnNode(DUP));
                code.add(Instructions.push(i));
                code.add(Instructions.push(element));
                code.add(new InsnNode(ints != null ? IASTORE : LASTORE));
            }
        }
        return code;
    }

    /**
     * Refuses an array that is written to: each method that reads it gets its own copy, so a write in one wouldn't be visible in another. Two fields
     * may share an array.
     */
    private void refuseWritten(Object array) throws ProblemException {
        for (Map.Entry<String, Problem> write : written.entrySet()) {
            FieldNode field = fields.get(write.getKey());
            if (values.containsKey(write.getKey())) {
                // a given array may be held by two fields
                throw new ProblemException(write.getValue());
            }
            Object other = field == null ? null : value(field);
            if (other == null || other == array) {
                throw new ProblemException(write.getValue());
            }
        }
    }
}
