package jentry.compiler.link;

import java.util.ArrayList;
import java.util.List;
import org.objectweb.asm.Handle;
import org.objectweb.asm.Label;
import org.objectweb.asm.Opcodes;
import org.objectweb.asm.Type;
import org.objectweb.asm.tree.MethodNode;
import jentry.compiler.ProgramClasses;
import jentry.compiler.profile.ProblemException;

/** Writes the loop of a stream. The parameters of its method are the stream's source, what the lambdas capture, and the value of the end. */
final class StreamLoop implements Opcodes {
    private final Linker linker;
    private final MethodNode code;
    private final Streams.Flow flow;
    private final String end;
    private final Streams.Lambda last;
    private final boolean isRange;
    private final Label head = new Label();
    private final Label behind = new Label();
    private int next;
    private int captured;
    private int value;
    private int index;
    private int sum;
    private int isFound;

    /**
     * Creates the writer of a loop.
     *
     * @param code the method to fill
     * @param end the name of the call that ends the stream
     * @param last the lambda of the end, or null
     */
    StreamLoop(Linker linker, MethodNode code, Streams.Flow flow, String end, Streams.Lambda last) {
        this.linker = linker;
        this.code = code;
        this.flow = flow;
        this.end = end;
        this.last = last;
        isRange = flow.source().name.startsWith("range");
        next = (Type.getArgumentsAndReturnSizes(code.desc) >> 2) - 1;
    }

    private int newLocal(int size) {
        int local = next;
        next += size;
        return local;
    }

    private static Type type(String element) {
        return element.equals("J") ? Type.LONG_TYPE : element.equals("I") ? Type.INT_TYPE : Type.getObjectType("java/lang/Object");
    }

    private Type result() {
        return Type.getReturnType(code.desc);
    }

    void write() throws ProblemException {
        Type[] source = Type.getArgumentTypes(flow.source().desc);
        for (Type type : source) {
            captured += type.getSize();
        }
        start(source[0]);
        code.visitLabel(head);
        Type element = isRange ? source[0] : type(source[0].getDescriptor().startsWith("[L") ? "A" : source[0].getDescriptor().substring(1));
        element(source[0], element);
        for (Streams.Stage stage : flow.stages()) {
            element = stage(stage, element);
        }
        add(element);
        code.visitJumpInsn(GOTO, head);
        code.visitLabel(behind);
        code.visitVarInsn(result().getOpcode(ILOAD), sum);
        code.visitInsn(result().getOpcode(IRETURN));
        code.visitMaxs(10, next);
    }

    /** Sets the counter, the result so far, and whether there is one. */
    private void start(Type source) {
        index = newLocal(isRange ? source.getSize() : 1);
        if (isRange) {
            code.visitVarInsn(source.getOpcode(ILOAD), 0);
            code.visitVarInsn(source.getOpcode(ISTORE), index);
        } else {
            code.visitInsn(ICONST_0);
            code.visitVarInsn(ISTORE, index);
        }
        int given = (Type.getArgumentsAndReturnSizes(code.desc) >> 2) - 1 - result().getSize();
        boolean isGiven = end.equals("reduce") || end.equals("min") || end.equals("max") || end.startsWith("find");
        sum = isGiven ? given : newLocal(result().getSize());
        if (!isGiven) {
            code.visitInsn(result() == Type.LONG_TYPE ? LCONST_0 : end.equals("allMatch") || end.equals("noneMatch") ? ICONST_1 : ICONST_0);
            code.visitVarInsn(result().getOpcode(ISTORE), sum);
        }
        isFound = newLocal(1);
        code.visitInsn(ICONST_0);
        code.visitVarInsn(ISTORE, isFound);
    }

    /** Stores the next element, or leaves the loop. */
    private void element(Type source, Type element) {
        value = newLocal(element.getSize());
        boolean isClosed = flow.source().name.equals("rangeClosed");
        if (isRange) {
            code.visitVarInsn(source.getOpcode(ILOAD), index);
            code.visitVarInsn(source.getOpcode(ILOAD), source.getSize());
            if (source == Type.LONG_TYPE) {
                code.visitInsn(LCMP);
                code.visitJumpInsn(isClosed ? IFGT : IFGE, behind);
            } else {
                code.visitJumpInsn(isClosed ? IF_ICMPGT : IF_ICMPGE, behind);
            }
            code.visitVarInsn(source.getOpcode(ILOAD), index);
        } else {
            code.visitVarInsn(ILOAD, index);
            code.visitVarInsn(ALOAD, 0);
            code.visitInsn(ARRAYLENGTH);
            code.visitJumpInsn(IF_ICMPGE, behind);
            code.visitVarInsn(ALOAD, 0);
            code.visitVarInsn(ILOAD, index);
            code.visitInsn(element.getOpcode(IALOAD));
        }
        code.visitVarInsn(element.getOpcode(ISTORE), value);
        if (isRange && source == Type.LONG_TYPE) {
            code.visitVarInsn(LLOAD, index);
            code.visitInsn(LCONST_1);
            code.visitInsn(LADD);
            code.visitVarInsn(LSTORE, index);
        } else {
            code.visitIincInsn(index, 1);
        }
    }

    private Type stage(Streams.Stage stage, Type element) throws ProblemException {
        Type now = type(stage.element());
        if (stage.lambda() == null) {
            code.visitVarInsn(ILOAD, value);
            code.visitInsn(I2L);
        } else if (stage.name().equals("filter")) {
            call(stage.lambda(), Type.BOOLEAN_TYPE, element);
            code.visitJumpInsn(IFEQ, head);
            return now;
        } else {
            call(stage.lambda(), now, element);
        }
        value = newLocal(now.getSize());
        code.visitVarInsn(now.getOpcode(ISTORE), value);
        return now;
    }

    /** Calls a lambda with the element, or with two values that are on the stack already behind what it captures. */
    private void call(Streams.Lambda lambda, Type result, Type... types) throws ProblemException {
        Handle body = lambda.body();
        List<Type> parameters = new ArrayList<>(List.of(Type.getArgumentTypes(body.getDesc())));
        boolean isStatic = body.getTag() == H_INVOKESTATIC;
        if (!isStatic) {
            parameters.add(0, Type.getObjectType(body.getOwner()));
        }
        Type[] held = Type.getArgumentTypes(lambda.site().desc);
        for (Type type : held) {
            Type mapped = linker.representation().of(type);
            code.visitVarInsn(mapped.getOpcode(ILOAD), captured);
            captured += mapped.getSize();
        }
        int[] from = types.length == 2 ? new int[] {sum, value} : new int[] {value};
        for (int i = 0; i < types.length; i++) {
            code.visitVarInsn(types[i].getOpcode(ILOAD), from[i]);
            convert(types[i], linker.representation().of(parameters.get(held.length + i)));
        }
        Type returned = Type.getReturnType(body.getDesc());
        if (ProgramClasses.isOfPlatform(body.getOwner())) {
            code.visitMethodInsn(isStatic ? INVOKESTATIC : INVOKEVIRTUAL, body.getOwner(), body.getName(), body.getDesc(), false);
        } else {
            List<Known.Place> places = new ArrayList<>(lambda.captured());
            while (places.size() < parameters.size()) {
                places.add(null);
            }
            MethodNode callee = linker.copyOf(body, places, lambda.site());
            code.visitMethodInsn(INVOKESTATIC, linker.made().name, callee.name, callee.desc, false);
            returned = Type.getReturnType(callee.desc);
        }
        convert(returned, result);
    }

    /** Casts, boxes or unboxes. */
    private void convert(Type from, Type to) {
        if (from.getSort() == Type.OBJECT && to.getSort() == Type.OBJECT) {
            if (!to.getInternalName().equals("java/lang/Object") && !to.equals(from)) {
                code.visitTypeInsn(CHECKCAST, to.getInternalName());
            }
        } else if (to.getSort() == Type.OBJECT) {
            boolean isLong = from == Type.LONG_TYPE;
            String box = isLong ? "java/lang/Long" : "java/lang/Integer";
            code.visitMethodInsn(INVOKESTATIC, box, "valueOf", "(" + (isLong ? "J" : "I") + ")L" + box + ";", false);
        } else if (from.getSort() == Type.OBJECT) {
            boolean isLong = to == Type.LONG_TYPE;
            String box = isLong ? "java/lang/Long" : "java/lang/Integer";
            if (!from.getInternalName().equals(box)) {
                code.visitTypeInsn(CHECKCAST, box);
            }
            code.visitMethodInsn(INVOKEVIRTUAL, box, isLong ? "longValue" : "intValue", isLong ? "()J" : "()I", false);
        } else if (from == Type.INT_TYPE && to == Type.LONG_TYPE) {
            code.visitInsn(I2L);
        }
    }

    /** Takes the element into the result, or leaves the loop. */
    private void add(Type element) throws ProblemException {
        switch (end) {
            case "sum" -> {
                code.visitVarInsn(element.getOpcode(ILOAD), sum);
                code.visitVarInsn(element.getOpcode(ILOAD), value);
                code.visitInsn(element.getOpcode(IADD));
                code.visitVarInsn(element.getOpcode(ISTORE), sum);
            }
            case "count" -> {
                code.visitVarInsn(LLOAD, sum);
                code.visitInsn(LCONST_1);
                code.visitInsn(LADD);
                code.visitVarInsn(LSTORE, sum);
            }
            case "reduce" -> {
                call(last, result(), element, element);
                code.visitVarInsn(element.getOpcode(ISTORE), sum);
            }
            case "min", "max" -> extreme(element);
            case "findFirst", "findAny" -> {
                code.visitVarInsn(element.getOpcode(ILOAD), value);
                code.visitInsn(element.getOpcode(IRETURN));
            }
            default -> match(element);
        }
    }

    private void extreme(Type element) {
        Label other = new Label();
        Label store = new Label();
        code.visitVarInsn(ILOAD, isFound);
        code.visitJumpInsn(IFNE, other);
        code.visitInsn(ICONST_1);
        code.visitVarInsn(ISTORE, isFound);
        code.visitVarInsn(element.getOpcode(ILOAD), value);
        code.visitJumpInsn(GOTO, store);
        code.visitLabel(other);
        code.visitVarInsn(element.getOpcode(ILOAD), sum);
        code.visitVarInsn(element.getOpcode(ILOAD), value);
        String descriptor = element == Type.LONG_TYPE ? "(JJ)J" : "(II)I";
        code.visitMethodInsn(INVOKESTATIC, "java/lang/Math", end, descriptor, false);
        code.visitLabel(store);
        code.visitVarInsn(element.getOpcode(ISTORE), sum);
    }

    private void match(Type element) throws ProblemException {
        call(last, Type.BOOLEAN_TYPE, element);
        code.visitJumpInsn(end.equals("allMatch") ? IFNE : IFEQ, head);
        code.visitInsn(end.equals("anyMatch") ? ICONST_1 : ICONST_0);
        code.visitInsn(IRETURN);
    }
}
