package jentry.compiler.link;

import java.time.LocalDate;
import java.util.ArrayList;
import java.util.HashMap;
import java.util.List;
import java.util.Map;
import org.objectweb.asm.Opcodes;
import org.objectweb.asm.Type;
import org.objectweb.asm.tree.AbstractInsnNode;
import org.objectweb.asm.tree.FieldInsnNode;
import org.objectweb.asm.tree.FieldNode;
import org.objectweb.asm.tree.FrameNode;
import org.objectweb.asm.tree.InsnList;
import org.objectweb.asm.tree.InsnNode;
import org.objectweb.asm.tree.IntInsnNode;
import org.objectweb.asm.tree.InvokeDynamicInsnNode;
import org.objectweb.asm.tree.JumpInsnNode;
import org.objectweb.asm.tree.LabelNode;
import org.objectweb.asm.tree.MethodInsnNode;
import org.objectweb.asm.tree.MethodNode;
import org.objectweb.asm.tree.MultiANewArrayInsnNode;
import org.objectweb.asm.tree.TypeInsnNode;
import org.objectweb.asm.tree.VarInsnNode;
import org.objectweb.asm.tree.analysis.BasicValue;
import org.objectweb.asm.tree.analysis.Frame;
import jentry.compiler.ProgramClasses;
import jentry.compiler.profile.Instructions;
import jentry.compiler.profile.Problem;
import jentry.compiler.profile.ProblemException;

/** Writes the copy of a method: calls lead to copies, and fields are read from the linked class. */
final class CopiedCode implements Opcodes {
    private final Linker linker;
    private final Classes.Method source;
    private final List<Known.Place> places;
    private final MethodNode copy;
    private final FoundPlaces found;
    private final Grids grids;
    private final Streams streams;
    private Frame<BasicValue> frame;

    /**
     * Creates the writer of a copy.
     *
     * @param places the places of the parameters, of the receiver first
     * @param copy the method to fill
     */
    CopiedCode(Linker linker, Classes.Method source, List<Known.Place> places, MethodNode copy) {
        this.linker = linker;
        this.source = source;
        this.places = places;
        this.copy = copy;
        found = new FoundPlaces(linker);
        grids = new Grids(linker.leaves(), copy);
        streams = new Streams(linker, copy);
    }

    void write() throws ProblemException {
        MethodNode method = source.node();
        copy.maxLocals = method.maxLocals;
        copy.maxStack = method.maxStack + 4;
        Frame<BasicValue>[] frames = KnownValues.of(source.owner(), method, found, places);
        Map<LabelNode, LabelNode> labels = new HashMap<>();
        for (AbstractInsnNode at : method.instructions) {
            if (at instanceof LabelNode label) {
                labels.put(label, new LabelNode());
            }
        }
        if (!Instructions.isStatic(method) && linker.packed().isPacked(source.owner().name)) {
            PackedObjects.addTestOfReceiver(copy.instructions);
        }
        for (int i = 0; i < frames.length; i++) {
            AbstractInsnNode at = method.instructions.get(i);
            frame = frames[i];
            if (at instanceof FrameNode) {
                continue;
            } else if (at.getOpcode() < 0) {
                copy.instructions.add(at.clone(labels));
            } else if (frame != null) {
                refuseLost(at);
                replacement(at, labels).forEach(copy.instructions::add);
            }
        }
        method.tryCatchBlocks.forEach(it -> copy.tryCatchBlocks.add(new org.objectweb.asm.tree.TryCatchBlockNode(labels.get(it.start),
            labels.get(it.end), labels.get(it.handler), it.type)));
    }

    private ProblemException problem(AbstractInsnNode at, String what, String remedy) {
        return new ProblemException(Instructions.problem(source.owner(), source.node(), at, what, remedy));
    }

    private BasicValue operand(int below) {
        return frame.getStack(frame.getStackSize() - 1 - below);
    }

    /** Returns how many operands an instruction takes that isn't among those that only move values. */
    private int operands(AbstractInsnNode at) {
        int opcode = at.getOpcode();
        if (at instanceof MethodInsnNode call) {
            return Type.getArgumentTypes(call.desc).length + (opcode == INVOKESTATIC ? 0 : 1);
        } else if (at instanceof InvokeDynamicInsnNode it) {
            return Type.getArgumentTypes(it.desc).length;
        }
        return switch (opcode) {
            case AALOAD, IALOAD, LALOAD, BALOAD, CALOAD, SALOAD -> 2;
            case IASTORE, LASTORE, BASTORE, CASTORE, SASTORE -> 3;
            case GETFIELD, IFNULL, IFNONNULL, INSTANCEOF, CHECKCAST, ARETURN, ATHROW, PUTSTATIC, ARRAYLENGTH, MONITORENTER, MONITOREXIT -> 1;
            case IF_ACMPEQ, IF_ACMPNE, PUTFIELD -> 2;
            case AASTORE -> 3;
            default -> 0;
        };
    }

    /** Refuses an instruction that would use the null that stands for an object. */
    private void refuseLost(AbstractInsnNode at) throws ProblemException {
        if ((at.getOpcode() == PUTFIELD || at.getOpcode() == PUTSTATIC) && at instanceof FieldInsnNode field) {
            String captured = at.getOpcode() == PUTFIELD ? linker.captureOfThis(Known.place(operand(1))) : "";
            throw problem(at, captured + "the field " + field.name + " is written", "use locals, arguments or the entry's value: a processor keeps nothing between its runs");
        }
        if (at.getOpcode() == ALOAD && Known.place(frame.getLocal(((VarInsnNode) at).var)) instanceof Known.Lost
            && frame.getLocal(((VarInsnNode) at).var).getType().getSort() == Type.ARRAY) {
            throw problem(at, "it isn't known at compile time which array this is", "use one array, with the index width * i + j");
        }
        if (at instanceof FieldInsnNode field && linker.packed().isPacked(Type.getType(field.desc))) {
            throw problem(at, "the field " + field.name + " has an object of " + Type.getType(field.desc).getClassName(), "keep it in a local");
        }
        for (int below = 0; below < operands(at); below++) {
            Known.Place place = Known.place(operand(below));
            if (linker.packed().isPacked(operand(below).getType()) && !PackedObjects.allows(at, below, operand(below).getType(), source.node())) {
                throw problem(at, "an object of " + operand(below).getType().getClassName() + " is used as more than its fields and methods",
                    "hand on the numbers in it");
            } else if (place instanceof Known.Lost) {
                throw problem(at, "it isn't known at compile time which object this is", "read the numbers that you need before you choose between objects");
            } else if (place != null && place.isAbstract() && !isUnderstood(at)) {
                boolean isOfArrays = place instanceof Grids.Grid || place instanceof Grids.Row;
                throw isOfArrays ? problem(at, "an array of arrays, or a row of one, is written though it is constant, or handed on", "use one array, with the index "
                    + "width * i + j") : problem(at, linker.captureOfThis(place) + "an object that the processor holds, or a constant object, is used as a value",
                        "hand over the numbers in it");
            } else if (linker.representation().isNumber(operand(below).getType()) && !staysItself(at, below)) {
                throw problem(at, "a " + operand(below).getType().getClassName() + " is used as an Object", "use its number, as by ordinal() or toEpochDay()");
            }
        }
    }

    /** Returns whether an enum or a date is used as what it is: as an Object it would be a number. */
    private boolean staysItself(AbstractInsnNode at, int below) {
        if (at instanceof MethodInsnNode call) {
            Type[] types = Type.getArgumentTypes(call.desc);
            boolean isArgument = below < types.length;
            return !isArgument || linker.representation().isNumber(types[types.length - 1 - below]) || call.name.equals("requireNonNull")
                || call.name.equals("equals") && types.length == 1 && isEnum(operand(1)) || call.name.equals("compareTo");
        }
        return switch (at.getOpcode()) {
            case ARETURN -> linker.representation().isNumber(Type.getReturnType(source.node().desc));
            case CHECKCAST, INSTANCEOF -> linker.representation().isNumber(Type.getObjectType(((TypeInsnNode) at).desc));
            case AASTORE -> false;
            default -> true;
        };
    }

    private boolean isUnderstood(AbstractInsnNode at) {
        if (grids.replace(at, frame, made(at), new InsnList())) {
            return true;
        }
        if (at instanceof MethodInsnNode call) {
            List<BasicValue> operands = values(call);
            return Streams.place(call, operands) != null || Streams.isEnd(call, operands) || found.target(call, operands) != null
                || JavaValues.result(call, operands) != null || call.name.equals("requireNonNull");
        }
        if (at instanceof InvokeDynamicInsnNode it) {
            return Streams.lambda(it, captured(it)) != null;
        }
        return switch (at.getOpcode()) {
            case GETFIELD, IFNULL, IFNONNULL, INSTANCEOF, CHECKCAST, ARETURN -> true;
            default -> false;
        };
    }

    private List<BasicValue> values(MethodInsnNode call) {
        List<BasicValue> values = new ArrayList<>();
        for (int below = operands(call) - 1; below >= 0; below--) {
            values.add(operand(below));
        }
        return values;
    }

    private List<BasicValue> captured(InvokeDynamicInsnNode at) {
        List<BasicValue> values = new ArrayList<>();
        for (int below = Type.getArgumentTypes(at.desc).length - 1; below >= 0; below--) {
            values.add(operand(below));
        }
        return values;
    }

    private Known.Place made(AbstractInsnNode at) {
        return at instanceof MultiANewArrayInsnNode array && array.dims == 2 ? found.ofArrays(array, List.of(operand(1), operand(0))) : null;
    }

    private InsnList replacement(AbstractInsnNode at, Map<LabelNode, LabelNode> labels) throws ProblemException {
        InsnList code = new InsnList();
        int opcode = at.getOpcode();
        if (grids.replace(at, frame, made(at), code)) {
            return code;
        } else if (at instanceof InvokeDynamicInsnNode it && Streams.lambda(it, captured(it)) != null) {
            streams.lambda(it, code);
        } else if (linker.packed().isMaking(at)) {
            return code;
        } else if (linker.packed().isConstructor(at)) {
            make((MethodInsnNode) at, code);
        } else if (linker.packed().isField(at)) {
            linker.packed().addRead((FieldInsnNode) at, code);
        } else if (at instanceof FieldInsnNode field && (opcode == GETSTATIC || opcode == GETFIELD)) {
            field(field, code);
        } else if (at instanceof MethodInsnNode call) {
            call(call, code);
        } else if (opcode == IFNULL || opcode == IFNONNULL) {
            testOfNull((JumpInsnNode) at, labels, code);
        } else if (opcode == IF_ACMPEQ || opcode == IF_ACMPNE) {
            testOfSame((JumpInsnNode) at, labels, code);
        } else if (opcode == CHECKCAST || opcode == INSTANCEOF) {
            type((TypeInsnNode) at, code);
        } else if (opcode == AALOAD && isEnums(operand(1))) {
            code.add(new InsnNode(IALOAD));
            box(code);
        } else {
            code.add(at.clone(labels));
        }
        return code;
    }

    /** Adds the call that makes the number of a packed object. */
    private void make(MethodInsnNode at, InsnList code) throws ProblemException {
        Classes.Method constructor = linker.packed().constructor(at);
        if (constructor == null) {
            throw problem(at, "the constructor of " + Instructions.nameOf(at.owner) + " does more than set its fields", "compute in a static method");
        }
        MethodNode callee = linker.copy(constructor, List.of());
        code.add(new MethodInsnNode(INVOKESTATIC, linker.made().name, callee.name, callee.desc, false));
    }

    private boolean isEnums(BasicValue array) {
        Type type = array.getType();
        return type != null && type.getSort() == Type.ARRAY && linker.representation().of(type).getDescriptor().equals("[I") && !type.getDescriptor().equals("[I");
    }

    private static void box(InsnList code) {
        code.add(new MethodInsnNode(INVOKESTATIC, "java/lang/Integer", "valueOf", "(I)Ljava/lang/Integer;", false));
    }

    private void pop(InsnList code, List<BasicValue> values) {
        for (int i = values.size() - 1; i >= 0; i--) {
            code.add(Instructions.pop(values.get(i).getSize()));
        }
    }

    /** Adds what stands for a known object or number. */
    private static void push(InsnList code, Object value) {
        if (value instanceof Integer || value instanceof Long) {
            code.add(Instructions.push(value));
        } else if (value instanceof Enum<?> it) {
            code.add(Instructions.push(it.ordinal()));
            box(code);
        } else if (value instanceof LocalDate it) {
            code.add(Instructions.push(it.toEpochDay()));
            code.add(new MethodInsnNode(INVOKESTATIC, "java/lang/Long", "valueOf", "(J)Ljava/lang/Long;", false));
        } else {
            code.add(new InsnNode(ACONST_NULL));
        }
    }

    // ---- fields

    private void field(FieldInsnNode at, InsnList code) throws ProblemException {
        boolean isStatic = at.getOpcode() == GETSTATIC;
        Known.Place receiver = isStatic ? null : Known.place(operand(0));
        Known.Place place = isStatic ? found.ofStatic(at) : found.ofField(receiver, at);
        Classes.Field field = linker.classes().field(at.owner, at.name, at.desc);
        if (place instanceof Known.Fixed fixed) {
            if (receiver instanceof Known.Held held) {
                linker.leaves().guard(path(held, field), fixed.object());
            }
            if (!isStatic) {
                dropObject(code);
            }
            push(code, fixed.object());
        } else if (place instanceof Grids.Grid) {
            code.add(new InsnNode(ACONST_NULL));
        } else if (place instanceof Known.Held held) {
            guardType(held);
        } else if (isStatic && Type.getType(at.desc).getSort() == Type.OBJECT && at.desc.equals("L" + at.owner + ";")
            && linker.representation().isEnum(at.owner) && linker.statics().ordinal(at.owner, at.name) >= 0) {
            code.add(Instructions.push(linker.statics().ordinal(at.owner, at.name)));
            box(code);
        } else if (isStatic && field != null) {
            code.add(linker.leaves().read(staticLeaf(at, field)));
        } else if (receiver instanceof Known.Fixed fixed && field != null) {
            dropObject(code);
            code.add(linker.leaves().read(fixedLeaf(at, fixed, field)));
        } else if (!isStatic && receiver == null && field != null && linker.representation().isEnum(field.owner().name)) {
            enumField(at, field, code);
        } else if (receiver instanceof Known.Held held && field != null) {
            dropObject(code);
            code.add(linker.leaves().read(heldLeaf(at, held, field)));
        } else {
            code.add(at.clone(Map.of()));
        }
    }

    /** Adds the look-up of a constant's field in a table by ordinals. */
    private void enumField(FieldInsnNode at, Classes.Field field, InsnList code) throws ProblemException {
        Object table = (field.node().access & ACC_FINAL) == 0 ? null : linker.statics().ofConstants(field.owner().name, field.node());
        if (table == null) {
            throw problem(at, "the field " + at.name + " of an enum isn't final, isn't a number, or isn't known at compile time", "use a switch");
        }
        String type = table instanceof long[] ? "[J" : "[I";
        code.add(new MethodInsnNode(INVOKEVIRTUAL, "java/lang/Integer", "intValue", "()I", false));
        code.add(linker.leaves().read(linker.leaves().constant(field.owner().name + "#" + at.name, at.name, type, table)));
        code.add(new InsnNode(SWAP));
        code.add(new InsnNode(table instanceof long[] ? LALOAD : IALOAD));
    }

    /** Drops what stands for an object: the instruction before is taken back, or a pop added. */
    private void dropObject(InsnList code) {
        AbstractInsnNode before = copy.instructions.getLast();
        if (before != null && (before.getOpcode() == ALOAD || before.getOpcode() == ACONST_NULL)) {
            copy.instructions.remove(before);
        } else {
            code.add(new InsnNode(POP));
        }
    }

    private static List<Capture.Step> path(Known.Held held, Classes.Field field) {
        List<Capture.Step> path = new ArrayList<>(held.path());
        path.add(new Capture.Step(field.owner().name, field.node().name));
        return path;
    }

    private void guardType(Known.Held held) {
        Object processor = linker.holder().processor();
        if (processor != null) {
            linker.leaves().guard(held.path(), HeldValues.at(processor, held.path()).getClass());
        }
    }

    private FieldNode staticLeaf(FieldInsnNode at, Classes.Field field) throws ProblemException {
        String what = "the static field " + Instructions.nameOf(field.owner().name) + "." + at.name;
        if ((field.node().access & ACC_FINAL) == 0) {
            throw problem(at, what + " isn't final", "make it final where it never changes; else use an argument or the entry's value");
        }
        Object value = Leaves.isLeaf(at.desc) ? linker.statics().value(field.owner().name, field.node()) : null;
        if (value == null || !isNumeric(value, at.desc)) {
            throw problem(at, what + " has a value that isn't known at compile time", "use numbers, arrays of them, enums, and what is computed of these");
        }
        Problem write = at.desc.startsWith("[") && !at.name.contains("$") ? linker.statics().write(field.owner(), value) : null;
        if (write != null) {
            throw new ProblemException(write);
        }
        return linker.leaves().constant(field.owner().name + "." + at.name, Instructions.nameOf(field.owner().name) + "." + at.name, at.desc, value);
    }

    private static boolean isNumeric(Object value, String descriptor) {
        return value instanceof Long || value instanceof Integer || descriptor.length() == 1 || descriptor.startsWith("[");
    }

    private record FieldOf(Known.Fixed object, String name) { }

    private FieldNode fixedLeaf(FieldInsnNode at, Known.Fixed object, Classes.Field field) throws ProblemException {
        String what = "the field " + at.name + " of a constant object";
        if ((field.node().access & ACC_FINAL) == 0) {
            throw problem(at, what + " isn't final", "make it final");
        }
        Object value = HeldValues.read(object.object().getClass(), object.object(), field.owner().name, at.name);
        boolean isEnum = value instanceof Enum<?>;
        if (value == null || !isEnum && (!Leaves.isLeaf(at.desc) || !isNumeric(value, at.desc))) {
            throw problem(at, what + " is of type " + Type.getType(at.desc).getClassName() + ", or null", "use numbers, and arrays of them");
        }
        Problem write = at.desc.startsWith("[") ? linker.statics().write(field.owner(), value) : null;
        if (write != null) {
            throw new ProblemException(write);
        }
        return linker.leaves().constant(new FieldOf(object, at.name), at.name, isEnum ? "Ljava/lang/Integer;" : at.desc, value);
    }

    private FieldNode heldLeaf(FieldInsnNode at, Known.Held held, Classes.Field field) throws ProblemException {
        boolean isFinal = (field.node().access & ACC_FINAL) != 0;
        boolean isNumber = linker.representation().isNumber(Type.getType(at.desc));
        if (!isNumber && !Leaves.isLeaf(at.desc)) {
            throw problem(at, linker.captureOfThis(held) + "the processor holds the value of the field " + at.name + ", which is of type "
                + Type.getType(at.desc).getClassName(), "hold numbers, arrays of them, enums, and records of these");
        }
        FieldNode leaf = linker.leaves().held(path(held, field), at.desc, isFinal, linker.representation().of(Type.getType(at.desc)).getDescriptor());
        if (leaf == null) {
            throw problem(at, "the array " + at.name + " is known only when the processor is sent", "make it static final, or let the Java client compile it");
        }
        return leaf;
    }

    // ---- calls

    private void call(MethodInsnNode at, InsnList code) throws ProblemException {
        List<BasicValue> operands = values(at);
        if (streams.replace(at, operands, code)) {
            return;
        }
        Object value = JavaValues.result(at, operands);
        Classes.Method target = value == null ? found.target(at, operands) : null;
        boolean isEnum = linker.representation().isEnum(at.owner) || at.owner.equals("java/lang/Enum");
        if (value != null) {
            pop(code, operands);
            push(code, value);
        } else if (at.name.equals("requireNonNull") && operands.size() == 1 && isAbstract(operands.get(0))) {
            return;
        } else if (isEnum && at.name.equals("values") && operands.isEmpty()) {
            ordinals(code, linker.statics().count(at.owner));
        } else if (target != null) {
            MethodNode callee = linker.copy(target, FoundPlaces.places(operands));
            code.add(new MethodInsnNode(INVOKESTATIC, linker.made().name, callee.name, callee.desc, false));
        } else if (isEnum && operands.size() == 2 && (at.name.equals("compareTo") || at.name.equals("equals") && isEnum(operands.get(1)))) {
            String result = at.name.equals("equals") ? "Z" : "I";
            code.add(new MethodInsnNode(INVOKESTATIC, "java/lang/Enum", at.name, "(Ljava/lang/Integer;Ljava/lang/Integer;)" + result, false));
        } else if (isEnum && at.name.equals("ordinal")) {
            code.add(new MethodInsnNode(INVOKEVIRTUAL, "java/lang/Integer", "intValue", "()I", false));
        } else if (at.getOpcode() == INVOKEVIRTUAL && Representation.isValue(at.owner) || at.getOpcode() == INVOKESTATIC && Representation.isValue(at.owner)) {
            String descriptor = linker.representation().of(at.desc, at.getOpcode() == INVOKESTATIC ? null : at.owner);
            code.add(new MethodInsnNode(INVOKESTATIC, at.owner, at.name, descriptor, false));
        } else {
            code.add(at.clone(Map.of()));
        }
    }

    private static boolean isAbstract(BasicValue value) {
        return Known.place(value) != null && Known.place(value).isAbstract();
    }

    private static void ordinals(InsnList code, int count) {
        code.add(Instructions.push(count));
        code.add(new IntInsnNode(NEWARRAY, T_INT));
        for (int i = 1; i < count; i++) {
            code.add(new InsnNode(DUP));
            code.add(Instructions.push(i));
            code.add(Instructions.push(i));
            code.add(new InsnNode(IASTORE));
        }
    }

    // ---- tests

    private void testOfNull(JumpInsnNode at, Map<LabelNode, LabelNode> labels, InsnList code) {
        if (!isAbstract(operand(0))) {
            code.add(at.clone(labels));
            return;
        }
        code.add(new InsnNode(POP));
        if (at.getOpcode() == IFNONNULL) {
            code.add(new JumpInsnNode(GOTO, labels.get(at.label)));
        }
    }

    private void testOfSame(JumpInsnNode at, Map<LabelNode, LabelNode> labels, InsnList code) {
        boolean isOfEnums = isEnum(operand(0)) || isEnum(operand(1));
        if (!isOfEnums) {
            code.add(at.clone(labels));
            return;
        }
        code.add(new MethodInsnNode(INVOKESTATIC, "java/lang/Enum", "same", "(Ljava/lang/Integer;Ljava/lang/Integer;)Z", false));
        code.add(new JumpInsnNode(at.getOpcode() == IF_ACMPEQ ? IFNE : IFEQ, labels.get(at.label)));
    }

    private boolean isEnum(BasicValue value) {
        return value.getType() != null && value.getType().getSort() == Type.OBJECT && linker.representation().isEnum(value.getType().getInternalName());
    }

    private void type(TypeInsnNode at, InsnList code) throws ProblemException {
        Type type = Type.getObjectType(at.desc);
        if (linker.packed().isPacked(type) && !type.equals(operand(0).getType())) {
            throw problem(at, "a cast to, or a test for, " + Instructions.nameOf(at.desc), "declare the local as this type");
        }
        Known.Place place = Known.place(operand(0));
        boolean isObject = place != null && place.isAbstract();
        if (!isObject) {
            Type mapped = linker.representation().of(type);
            boolean isSame = mapped.equals(type) || mapped.getInternalName().equals("java/lang/Object");
            code.add(isSame ? at.clone(Map.of()) : new TypeInsnNode(at.getOpcode(), mapped.getInternalName()));
            return;
        }
        boolean isKnown = place.type() != null && (ProgramClasses.isOfPlatform(at.desc) ? at.desc.equals("java/lang/Object")
            || at.desc.equals(place.type()) : linker.classes().isBelow(place.type(), at.desc));
        if (at.getOpcode() == CHECKCAST && isKnown) {
            return;
        } else if (at.getOpcode() == INSTANCEOF && isKnown) {
            code.add(new InsnNode(POP));
            code.add(new InsnNode(ICONST_1));
        } else {
            throw problem(at, "a cast to, or a test for, " + Instructions.nameOf(at.desc) + " of an object that the processor holds", "declare the field as this type");
        }
    }
}
