package jentry.compiler.rewrite;

import java.util.ArrayDeque;
import java.util.ArrayList;
import java.util.Deque;
import java.util.HashSet;
import java.util.LinkedHashMap;
import java.util.List;
import java.util.Map;
import java.util.Set;
import java.util.function.Predicate;
import org.objectweb.asm.Handle;
import org.objectweb.asm.MethodVisitor;
import org.objectweb.asm.Opcodes;
import org.objectweb.asm.Type;
import org.objectweb.asm.tree.AbstractInsnNode;
import org.objectweb.asm.tree.ClassNode;
import org.objectweb.asm.tree.FieldInsnNode;
import org.objectweb.asm.tree.InvokeDynamicInsnNode;
import org.objectweb.asm.tree.MethodInsnNode;
import org.objectweb.asm.tree.MethodNode;
import jentry.compiler.profile.Instructions;
import jentry.compiler.profile.Members;
import jentry.compiler.profile.Problem;
import jentry.compiler.profile.ProblemException;

/** Converts a lambda or a method reference to a class, if it is an EntryProcessor. */
public final class Lambdas implements Opcodes {
    private static final Set<String> BOXES = Set.of("java/lang/Object", "java/lang/Number", "java/lang/Long", "java/lang/Integer", "java/lang/Void",
        Members.BOOLEAN);

    /** The start of the names of the fields in which a lambda keeps the captured values, counted from 1. */
    public static final String CAPTURED = "arg$";

    private Lambdas() { }

    /**
     * A lambda that implements EntryProcessor.
     *
     * @param host the class that contains it
     * @param method the method that creates it
     * @param site the instruction that creates it
     */
    public record Lambda(ClassNode host, MethodNode method, InvokeDynamicInsnNode site) {
        /** Returns the method that is its body. */
        public Handle body() {
            return (Handle) site.bsmArgs[1];
        }

        /** Returns the internal name of the interface that it is made as. */
        public String type() {
            return Type.getReturnType(site.desc).getInternalName();
        }

        /** Returns the internal name of the new class. No other body has it, nor does any class nested in the host. */
        public String className() {
            Set<String> taken = new HashSet<>();
            host.innerClasses.forEach(it -> taken.add(it.name));
            for (MethodNode method : host.methods) {
                String name = host.name + "$" + method.name;
                while (!taken.add(name)) {
                    name += "_";
                }
                if (isBody(host.name, method.name, method.desc)) {
                    return name;
                }
            }
            String name = host.name + "$" + body().getName();
            while (!taken.add(name)) {
                name += "_";
            }
            return name;
        }

        /** Returns whether its body is this method. */
        public boolean isBody(String owner, String name, String descriptor) {
            return body().getOwner().equals(owner) && body().getName().equals(name) && body().getDesc().equals(descriptor);
        }

        Problem problem(String what, String remedy) {
            return Instructions.problem(host, method, site, what, remedy);
        }
    }

    /**
     * Returns the lambdas of a class that implement EntryProcessor, each body once for each interface that it is used as.
     *
     * @param isProcessor tells of an interface, by its internal name, whether it is EntryProcessor or extends it
     */
    public static List<Lambda> of(ClassNode host, Predicate<String> isProcessor) {
        Map<String, Lambda> found = new LinkedHashMap<>();
        for (MethodNode method : host.methods) {
            if (method.name.equals("$deserializeLambda$")) {
                // javac generates this method, which creates each serializable lambda a second time
                continue;
            }
            for (AbstractInsnNode at : method.instructions) {
                boolean makes = at instanceof InvokeDynamicInsnNode it && it.name.equals("process") && it.bsmArgs.length > 1 && it.bsmArgs[1] instanceof Handle;
                if (makes && isProcessor.test(Type.getReturnType(((InvokeDynamicInsnNode) at).desc).getInternalName())) {
                    Lambda lambda = new Lambda(host, method, (InvokeDynamicInsnNode) at);
                    found.putIfAbsent(lambda.type() + " " + lambda.body().getOwner() + "." + lambda.body().getName() + lambda.body().getDesc(), lambda);
                }
            }
        }
        return new ArrayList<>(found.values());
    }

    /** Returns whether a lambda captures nothing, and its body is a static method of the class that contains it. */
    public static boolean isOwn(Lambda lambda) {
        Handle body = lambda.body();
        return Type.getArgumentTypes(lambda.site().desc).length == 0 && body.getTag() == H_INVOKESTATIC && body.getOwner().equals(lambda.host().name);
    }

    /**
     * Returns a class whose fields hold what a lambda captures, and whose process calls its body.
     *
     * @throws ProblemException if its body isn't a method for an entry and arguments
     */
    public static ClassNode toHolder(Lambda lambda) throws ProblemException {
        Handle body = lambda.body();
        Type[] captured = Type.getArgumentTypes(lambda.site().desc);
        boolean hasReceiver = body.getTag() != H_INVOKESTATIC;
        if (body.getTag() == H_NEWINVOKESPECIAL || hasReceiver && captured.length == 0) {
            throw new ProblemException(lambda.problem("this is a reference to a constructor, or to a method of an object that is no processor",
                "refer to a method that takes the entry and the arguments, or write a lambda"));
        }
        ClassNode made = new ClassNode();
        made.visit(V1_8, ACC_PUBLIC | ACC_SUPER, lambda.className(), null, "java/lang/Object", new String[] {Members.PROCESSOR});
        made.visitSource(lambda.host().sourceFile, null);
        addConstructor(made);
        for (int i = 0; i < captured.length; i++) {
            made.visitField(ACC_PRIVATE | ACC_FINAL, CAPTURED + (i + 1), captured[i].getDescriptor(), null, null);
        }
        addProcess(made, lambda, body.getOwner(), captured);
        return made;
    }

    /**
     * Returns the class of a lambda for which {@link #isOwn} holds, with the methods and static fields of its host that it uses.
     *
     * @throws ProblemException if its body isn't a method for an entry and arguments
     */
    public static ClassNode toClass(Lambda lambda) throws ProblemException {
        ClassNode made = new ClassNode();
        made.visit(V1_8, ACC_PUBLIC | ACC_SUPER, lambda.className(), null, "java/lang/Object", new String[] {Members.PROCESSOR});
        made.visitSource(lambda.host().sourceFile, null);
        addConstructor(made);
        addProcess(made, lambda, made.name, new Type[0]);
        lambda.host().fields.stream().filter(it -> (it.access & ACC_STATIC) != 0).forEach(made.fields::add);
        addMethods(made, lambda);
        return made;
    }

    private static void addConstructor(ClassNode made) {
        MethodVisitor code = made.visitMethod(ACC_PUBLIC, "<init>", "()V", null, null);
        code.visitVarInsn(ALOAD, 0);
        code.visitMethodInsn(INVOKESPECIAL, "java/lang/Object", "<init>", "()V", false);
        code.visitInsn(RETURN);
        code.visitMaxs(1, 1);
    }

    private static void addProcess(ClassNode made, Lambda lambda, String owner, Type[] captured) throws ProblemException {
        Handle body = lambda.body();
        Type[] types = Type.getArgumentTypes(body.getDesc());
        int first = captured.length - (body.getTag() == H_INVOKESTATIC ? 0 : 1);
        boolean takesBoth = types.length == first + 2 && Set.of("L" + Members.ENTRY + ";", "Ljavax/cache/Cache$Entry;", "Ljava/lang/Object;")
            .contains(types[first].getDescriptor()) && types[first + 1].getDescriptor().equals("[Ljava/lang/Object;");
        if (!takesBoth) {
            throw new ProblemException(lambda.problem("the body's parameters aren't (MutableEntry, Object[])", "declare them so"));
        }
        MethodVisitor code = made.visitMethod(ACC_PUBLIC | ACC_VARARGS, "process", Members.PROCESS, null, null);
        int size = 2;
        for (int i = 0; i < captured.length; i++) {
            code.visitVarInsn(ALOAD, 0);
            code.visitFieldInsn(GETFIELD, made.name, CAPTURED + (i + 1), captured[i].getDescriptor());
            size += captured[i].getSize();
        }
        code.visitVarInsn(ALOAD, 1);
        code.visitVarInsn(ALOAD, 2);
        int opcode = switch (body.getTag()) {
            case H_INVOKESTATIC -> INVOKESTATIC;
            case H_INVOKEINTERFACE -> INVOKEINTERFACE;
            case H_INVOKESPECIAL -> INVOKESPECIAL;
            default -> INVOKEVIRTUAL;
        };
        code.visitMethodInsn(opcode, owner, body.getName(), body.getDesc(), body.isInterface() && !owner.equals(made.name));
        Type result = Type.getReturnType(lambda.body().getDesc());
        if (result == Type.LONG_TYPE) {
            code.visitMethodInsn(INVOKESTATIC, "java/lang/Long", "valueOf", "(J)Ljava/lang/Long;", false);
        } else if (result == Type.INT_TYPE) {
            code.visitMethodInsn(INVOKESTATIC, "java/lang/Integer", "valueOf", "(I)Ljava/lang/Integer;", false);
        } else if (result == Type.BOOLEAN_TYPE) {
            code.visitMethodInsn(INVOKESTATIC, Members.BOOLEAN, "valueOf", "(Z)Ljava/lang/Boolean;", false);
        } else if (result.getSort() != Type.OBJECT || !BOXES.contains(result.getInternalName())) {
            throw new ProblemException(lambda.problem("the result is of type " + result.getClassName(), "return a Long, an Integer, a Boolean or null"));
        }
        code.visitInsn(ARETURN);
        code.visitMaxs(size, 3);
    }

    private static void addMethods(ClassNode made, Lambda lambda) {
        ClassNode host = lambda.host();
        Set<MethodNode> taken = new HashSet<>();
        Deque<MethodNode> open = new ArrayDeque<>();
        open.add(Instructions.method(host, lambda.body().getName(), lambda.body().getDesc()));
        MethodNode initialiser = Instructions.method(host, "<clinit>", "()V");
        if (initialiser != null) {
            open.add(initialiser);
        }
        while (!open.isEmpty()) {
            MethodNode method = open.poll();
            if (taken.add(method)) {
                made.methods.add(copy(method, host, made, open));
            }
        }
    }

    private static MethodNode copy(MethodNode method, ClassNode host, ClassNode made, Deque<MethodNode> open) {
        MethodNode copy = new MethodNode(ASM9, method.access, method.name, method.desc, null, null);
        method.accept(copy);
        for (AbstractInsnNode at : copy.instructions) {
            MethodNode callee = Instructions.callee(host, at);
            if (callee != null && !callee.name.startsWith("<")) {
                ((MethodInsnNode) at).owner = made.name;
                ((MethodInsnNode) at).itf = false;
                open.add(callee);
            } else if (at instanceof FieldInsnNode field && field.owner.equals(host.name)) {
                field.owner = made.name;
            }
        }
        return copy;
    }
}
