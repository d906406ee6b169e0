package jentry.compiler.rewrite;

import java.util.ArrayList;
import java.util.Collections;
import java.util.HashMap;
import java.util.IdentityHashMap;
import java.util.List;
import java.util.Map;
import java.util.Set;
import org.objectweb.asm.Opcodes;
import org.objectweb.asm.Type;
import org.objectweb.asm.tree.AbstractInsnNode;
import org.objectweb.asm.tree.ClassNode;
import org.objectweb.asm.tree.FieldInsnNode;
import org.objectweb.asm.tree.FieldNode;
import org.objectweb.asm.tree.IincInsnNode;
import org.objectweb.asm.tree.IntInsnNode;
import org.objectweb.asm.tree.InvokeDynamicInsnNode;
import org.objectweb.asm.tree.JumpInsnNode;
import org.objectweb.asm.tree.LdcInsnNode;
import org.objectweb.asm.tree.MethodInsnNode;
import org.objectweb.asm.tree.MethodNode;
import org.objectweb.asm.tree.VarInsnNode;
import jentry.compiler.profile.Instructions;
import jentry.compiler.unroll.Arithmetic;

/**
 * Runs the initialisers of a class at compile time to find the values of its fields: numbers, boxed numbers, and arrays of numbers.
 *
 * <p>Here an int is an Integer and a long a Long; a boxed number is a {@link Box}.
 */
final class Initialisers implements Opcodes {
    /** A java.lang.Long or Integer object. */
    record Box(Number number) { }

    /** An unknown value of one slot or two. */
    record Unknown(int size) { }

    /** Thrown if an initialiser does something that isn't supported at compile time. */
    static final class UnsupportedException extends Exception {
        private static final long serialVersionUID = 1L;

        private final transient AbstractInsnNode at;

        UnsupportedException(AbstractInsnNode at, String why) {
            super(why);
            this.at = at;
        }

        AbstractInsnNode at() {
            return at;
        }
    }

    static final Object NULL = new Object();
    private static final Object SELF = new Object();
    private static final int MOST_STEPS = 10_000_000;
    private static final int MOST_DEPTH = 200;
    private static final int LONGEST_ARRAY = 65_535;
    private static final Set<String> OWNERS = Set.of("java/lang/Long", "java/lang/Integer", "java/lang/Math", "java/lang/StrictMath", "java/lang/Number");

    private final ClassNode owner;
    private final boolean isLenient;
    private final Map<String, Object> fields = new HashMap<>();
    private final Set<Object> spoiled = Collections.newSetFromMap(new IdentityHashMap<>());
    private final Set<String> written;
    private boolean isConstructing;
    private int steps;
    private int depth;

    /**
     * Creates the interpreter of a class.
     *
     * @param written the fields whose arrays the class writes to after its initialisers
     * @param isLenient whether an unsupported computation gives an unknown value, because the rest of the class isn't part of the processor
     */
    Initialisers(ClassNode owner, Set<String> written, boolean isLenient) {
        this.owner = owner;
        this.written = written;
        this.isLenient = isLenient;
        owner.fields.stream().filter(it -> it.value instanceof Integer || it.value instanceof Long).forEach(it -> fields.put(it.name, it.value));
    }

    /** Returns the value of a field, or null if it isn't known. */
    Object value(FieldNode field) {
        Object value = fields.get(field.name);
        return value instanceof Unknown || value == SELF || spoiled.contains(value) ? null : value;
    }

    /** Runs an initialiser: that of the class, or a constructor without parameters. */
    void run(MethodNode method) throws UnsupportedException {
        try {
            isConstructing = !Instructions.isStatic(method);
            call(method, isConstructing ? List.of(SELF) : List.of());
        } catch (UnsupportedException e) {
            if (!isLenient) {
                throw e;
            }
            // the instructions that weren't run may write to arrays, so their elements aren't known
            fields.values().forEach(this::spoil);
        }
    }

    private void spoil(Object value) {
        if (value instanceof int[] || value instanceof long[]) {
            spoiled.add(value);
        }
    }

    private Object call(MethodNode method, List<Object> arguments) throws UnsupportedException {
        if (++depth > MOST_DEPTH || !method.tryCatchBlocks.isEmpty()) {
            throw new UnsupportedException(method.instructions.getFirst(), "calls too deep, or a try");
        }
        Activation activation = new Activation(method, arguments);
        Object result = null;
        AbstractInsnNode at = method.instructions.getFirst();
        while (at != null) {
            if (++steps > MOST_STEPS) {
                throw new UnsupportedException(at, "more than " + MOST_STEPS + " instructions");
            }
            int opcode = at.getOpcode();
            if (opcode >= IRETURN && opcode <= RETURN) {
                result = opcode == RETURN ? null : activation.pop();
                break;
            }
            at = opcode < 0 ? at.getNext() : activation.step(at);
        }
        depth--;
        return result;
    }

    /** One activation of a method. */
    private final class Activation {
        private final Object[] locals;
        private final List<Object> stack = new ArrayList<>();

        Activation(MethodNode method, List<Object> arguments) {
            locals = new Object[method.maxLocals + 1];
            int local = 0;
            for (Object argument : arguments) {
                locals[local] = argument;
                local += size(argument);
            }
        }

        private int size(Object value) {
            return value instanceof Long || value instanceof Unknown it && it.size == 2 ? 2 : 1;
        }

        Object pop() {
            return stack.remove(stack.size() - 1);
        }

        private void push(Object value) {
            stack.add(value);
        }

        AbstractInsnNode step(AbstractInsnNode at) throws UnsupportedException {
            int opcode = at.getOpcode();
            Object constant = Instructions.pushed(at);
            if (constant != null) {
                push(constant);
            } else if (at instanceof JumpInsnNode jump) {
                return isTaken(jump) ? jump.label : at.getNext();
            } else if (opcode >= ILOAD && opcode <= ALOAD) {
                push(locals[((VarInsnNode) at).var]);
            } else if (opcode >= ISTORE && opcode <= ASTORE) {
                locals[((VarInsnNode) at).var] = pop();
            } else if (at instanceof IincInsnNode it) {
                locals[it.var] = locals[it.var] instanceof Integer n ? (Object) (n + it.incr) : new Unknown(1);
            } else if (at instanceof FieldInsnNode field) {
                access(field);
            } else if (at instanceof MethodInsnNode call) {
                call(call);
            } else if (opcode >= POP && opcode <= SWAP) {
                rearrange(at);
            } else if (opcode >= IALOAD && opcode <= SALOAD || opcode >= IASTORE && opcode <= SASTORE) {
                element(at);
            } else {
                other(at);
            }
            return at.getNext();
        }

        private boolean isTaken(JumpInsnNode jump) throws UnsupportedException {
            int opcode = jump.getOpcode();
            if (opcode == GOTO) {
                return true;
            }
            Object top = pop();
            if (opcode == IFNULL || opcode == IFNONNULL) {
                if (top instanceof Unknown) {
                    throw new UnsupportedException(jump, "a test of a value that isn't known");
                }
                return (top == NULL) == (opcode == IFNULL);
            } else if (opcode <= IFLE && top instanceof Integer n) {
                return Arithmetic.holds(opcode - IFEQ, n, 0);
            } else if (opcode >= IF_ICMPEQ && opcode <= IF_ICMPLE && top instanceof Integer n && pop() instanceof Integer m) {
                return Arithmetic.holds(opcode - IF_ICMPEQ, m, n);
            }
            throw new UnsupportedException(jump, "a test of a value that isn't known");
        }

        private void access(FieldInsnNode at) throws UnsupportedException {
            boolean writes = at.getOpcode() == PUTSTATIC || at.getOpcode() == PUTFIELD;
            Object value = writes ? pop() : null;
            boolean isStatic = at.getOpcode() == GETSTATIC || at.getOpcode() == PUTSTATIC;
            boolean ofSelf = isStatic || pop() == SELF;
            if (isConstructing && isStatic && mayChange(at.name)) {
                throw new UnsupportedException(at, "the static field " + at.name + " may be another one for each instance");
            }
            if (!at.owner.equals(owner.name) || !ofSelf || owner.fields.stream().noneMatch(it -> it.name.equals(at.name))) {
                unsupported(at, "the field " + at.name + " of another class or object");
                value = new Unknown(Type.getType(at.desc).getSize());
            } else if (writes) {
                fields.put(at.name, value);
            } else {
                value = fields.getOrDefault(at.name, initial(Type.getType(at.desc)));
            }
            if (!writes) {
                push(value);
            }
        }

        /** Returns whether a static field, or an element of its array, may be written to between the creation of two instances. */
        private boolean mayChange(String name) {
            boolean isFinal = owner.fields.stream().anyMatch(it -> it.name.equals(name) && (it.access & ACC_FINAL) != 0);
            Object value = fields.get(name);
            boolean isArray = value instanceof int[] || value instanceof long[];
            return !isFinal || isArray && written.stream().map(fields::get).anyMatch(it -> it == value || it == null || it instanceof Unknown);
        }

        private Object initial(Type type) {
            return type.getSort() == Type.LONG ? (Object) 0L : type.getSort() >= Type.ARRAY ? NULL
                : type.getSort() <= Type.INT ? (Object) 0 : new Unknown(type.getSize());
        }

        private void call(MethodInsnNode at) throws UnsupportedException {
            List<Object> arguments = new ArrayList<>();
            for (int count = Type.getArgumentTypes(at.desc).length + (at.getOpcode() == INVOKESTATIC ? 0 : 1); count > 0; count--) {
                arguments.add(0, pop());
            }
            Type result = Type.getReturnType(at.desc);
            MethodNode callee = at.name.equals("<init>") ? null : Instructions.callee(owner, at);
            Object value;
            if (at.name.equals("<init>") && at.owner.equals("java/lang/Object") && arguments.get(0) == SELF) {
                return;
            } else if (callee != null && (Instructions.isStatic(callee) || arguments.get(0) == SELF)) {
                value = Initialisers.this.call(callee, arguments);
            } else if (at.name.equals("desiredAssertionStatus")) {
                value = 0;
            } else {
                value = OWNERS.contains(at.owner) ? libraryResult(at, arguments) : null;
                if (value == null) {
                    unsupported(at, "a call of " + Instructions.nameOf(at.owner) + "." + at.name);
                    arguments.forEach(Initialisers.this::spoil);
                    value = new Unknown(result.getSize());
                }
            }
            if (result != Type.VOID_TYPE) {
                push(value);
            }
        }

        /** Calls the method on this JVM. Returns null if the arguments aren't known, the result isn't a number, or the method throws. */
        private Object libraryResult(MethodInsnNode at, List<Object> arguments) {
            try {
                List<Object> values = new ArrayList<>();
                for (Object argument : arguments) {
                    if (!(argument instanceof Integer || argument instanceof Long || argument instanceof Box)) {
                        return null;
                    }
                    values.add(argument instanceof Box box ? box.number : argument);
                }
                Class<?> type = Class.forName(Instructions.nameOf(at.owner));
                java.lang.invoke.MethodType descriptor = java.lang.invoke.MethodType.fromMethodDescriptorString(at.desc, type.getClassLoader());
                java.lang.reflect.Method method = type.getMethod(at.name, descriptor.parameterArray());
                Object receiver = at.getOpcode() == INVOKESTATIC ? null : values.remove(0);
                Object result = method.invoke(receiver, values.toArray());
                boolean isBox = descriptor.returnType() == Long.class || descriptor.returnType() == Integer.class;
                return isBox ? new Box((Number) result) : result instanceof Boolean it ? (Object) (it ? 1 : 0)
                    : descriptor.returnType() == int.class || descriptor.returnType() == long.class ? result : null;
            } catch (ReflectiveOperationException | TypeNotPresentException e) {
                return null;
            }
        }

        private void rearrange(AbstractInsnNode at) throws UnsupportedException {
            Object top = pop();
            switch (at.getOpcode()) {
                case POP -> { }
                case POP2 -> {
                    if (size(top) == 1) {
                        pop();
                    }
                }
                case DUP -> stack.addAll(List.of(top, top));
                case DUP_X1 -> stack.addAll(List.of(top, pop(), top));
                case DUP2 -> stack.addAll(size(top) == 2 ? List.of(top, top) : twice(pop(), top));
                case DUP_X2 -> stack.addAll(belowTwo(List.of(top)));
                case DUP2_X1 -> stack.addAll(belowOne(size(top) == 2 ? List.of(top) : List.of(pop(), top)));
                case DUP2_X2 -> stack.addAll(belowTwo(size(top) == 2 ? List.of(top) : List.of(pop(), top)));
                default -> throw new UnsupportedException(at, "an instruction that javac doesn't write");
            }
        }

        private List<Object> twice(Object below, Object top) {
            return List.of(below, top, below, top);
        }

        private List<Object> belowOne(List<Object> copied) {
            Object below = pop();
            List<Object> all = new ArrayList<>(copied);
            all.add(below);
            all.addAll(copied);
            return all;
        }

        private List<Object> belowTwo(List<Object> copied) {
            Object below = pop();
            List<Object> all = new ArrayList<>(copied);
            if (size(below) == 1) {
                all.add(pop());
            }
            all.add(below);
            all.addAll(copied);
            return all;
        }

        private void element(AbstractInsnNode at) throws UnsupportedException {
            boolean writes = at.getOpcode() >= IASTORE;
            Object value = writes ? pop() : null;
            Object index = pop();
            Object array = pop();
            int length = array instanceof int[] ints ? ints.length : array instanceof long[] longs ? longs.length : -1;
            if (!(index instanceof Integer i) || i < 0 || i >= length) {
                unsupported(at, "an element that isn't known, or isn't there");
                spoil(array);
                value = new Unknown(at.getOpcode() == LALOAD || at.getOpcode() == DALOAD ? 2 : 1);
            } else if (writes) {
                store(at, array, i, value);
            } else {
                value = array instanceof int[] ints ? (Object) ints[i] : (Object) ((long[]) array)[i];
            }
            if (!writes) {
                push(value);
            }
        }

        private void store(AbstractInsnNode at, Object array, int index, Object value) throws UnsupportedException {
            if (array instanceof int[] ints && value instanceof Integer n) {
                ints[index] = n;
            } else if (array instanceof long[] longs && value instanceof Long n) {
                longs[index] = n;
            } else {
                unsupported(at, "an element that isn't known");
                spoil(array);
            }
        }

        private void other(AbstractInsnNode at) throws UnsupportedException {
            switch (at.getOpcode()) {
                case NOP, CHECKCAST -> { }
                case ACONST_NULL -> push(NULL);
                case NEWARRAY -> push(array((IntInsnNode) at, pop()));
                case ARRAYLENGTH -> {
                    Object array = pop();
                    push(array instanceof int[] ints ? (Object) ints.length : array instanceof long[] longs ? (Object) longs.length : new Unknown(1));
                }
                case LDC -> push(constant((LdcInsnNode) at));
                case FCONST_0, FCONST_1, FCONST_2, DCONST_0, DCONST_1 -> {
                    unsupported(at, "float or double");
                    push(new Unknown(at.getOpcode() >= DCONST_0 ? 2 : 1));
                }
                case NEW -> opaque(at, 0, 1);
                case ANEWARRAY -> opaque(at, 1, 1);
                case AASTORE -> opaque(at, 3, 0);
                case AALOAD -> opaque(at, 2, 1);
                case INSTANCEOF -> opaque(at, 1, 1);
                case INVOKEDYNAMIC -> opaque(at, Type.getArgumentTypes(((InvokeDynamicInsnNode) at).desc).length, 1);
                default -> calculate(at);
            }
        }

        private Object constant(LdcInsnNode at) throws UnsupportedException {
            if (!(at.cst instanceof Type)) {
                unsupported(at, "a text, float or double");
            }
            return new Unknown(at.cst instanceof Double ? 2 : 1);
        }

        private Object array(IntInsnNode at, Object length) throws UnsupportedException {
            boolean fits = length instanceof Integer n && n >= 0 && n <= LONGEST_ARRAY;
            if (!fits || at.operand != T_INT && at.operand != T_LONG) {
                unsupported(at, "an array that isn't of int or long, or of more than 65,535 elements");
                return new Unknown(1);
            }
            return at.operand == T_INT ? (Object) new int[(Integer) length] : new long[(Integer) length];
        }

        private void opaque(AbstractInsnNode at, int pops, int pushes) throws UnsupportedException {
            unsupported(at, "an object is made, read or written");
            for (int i = 0; i < pops; i++) {
                spoil(pop());
            }
            if (pushes > 0) {
                push(new Unknown(1));
            }
        }

        private void calculate(AbstractInsnNode at) throws UnsupportedException {
            int opcode = at.getOpcode();
            boolean isUnary = opcode >= INEG && opcode <= DNEG || opcode >= I2L && opcode <= I2S;
            Object right = stack.isEmpty() ? null : pop();
            Object value = isUnary ? Arithmetic.unary(opcode, right) : Arithmetic.binary(opcode, stack.isEmpty() ? null : pop(), right);
            boolean isArithmetic = opcode >= IADD && opcode <= LXOR || isUnary || opcode >= LCMP && opcode <= DCMPG;
            if (value == null && !(isLenient && isArithmetic)) {
                throw new UnsupportedException(at, "arithmetic that throws, or isn't of int and long");
            }
            push(value == null ? new Unknown(isWide(opcode) ? 2 : 1) : value);
        }

        private boolean isWide(int opcode) {
            return switch (opcode) {
                case LADD, DADD, LSUB, DSUB, LMUL, DMUL, LDIV, DDIV, LREM, DREM, LNEG, DNEG, LSHL, LSHR, LUSHR, LAND, LOR, LXOR -> true;
                case I2L, I2D, L2D, F2L, F2D, D2L -> true;
                default -> false;
            };
        }

        private void unsupported(AbstractInsnNode at, String why) throws UnsupportedException {
            if (!isLenient) {
                throw new UnsupportedException(at, why);
            }
        }
    }
}
