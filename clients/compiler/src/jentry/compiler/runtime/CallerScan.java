package jentry.compiler.runtime;

import java.lang.StackWalker.StackFrame;
import java.security.CodeSource;
import java.util.ArrayList;
import java.util.HashSet;
import java.util.List;
import java.util.Objects;
import java.util.Set;
import java.util.stream.Stream;
import org.objectweb.asm.ClassReader;
import org.objectweb.asm.Handle;
import org.objectweb.asm.Opcodes;
import org.objectweb.asm.Type;
import org.objectweb.asm.tree.AbstractInsnNode;
import org.objectweb.asm.tree.ClassNode;
import org.objectweb.asm.tree.FieldInsnNode;
import org.objectweb.asm.tree.InvokeDynamicInsnNode;
import org.objectweb.asm.tree.MethodInsnNode;
import org.objectweb.asm.tree.MethodNode;
import jentry.compiler.CompileException;
import jentry.compiler.profile.Instructions;
import jentry.compiler.profile.Members;
import jentry.compiler.rewrite.ValueSources;

/**
 * Finds which lambda a program passes, from the call on the stack.
 *
 * <p>The call of the client's method is looked up in the class file of its caller by its line and by the called method; javac may generate it several
 * times, for example for a finally. The argument must be created in the calling method, or be a final field of the class that creates the lambda.
 * Anything else, such as a parameter or the result of another method, could be a different lambda of the class, so nothing is found.
 */
final class CallerScan {
    private static final String PROCESSOR = "L" + Members.PROCESSOR + ";";
    private static final String CLIENT = "jentry.jcache.";

    private final Class<?> host;
    private final ClassNode hostNode;

    /**
     * Creates a scan for the lambdas that a class creates.
     *
     * @param classFile the class file of the host
     */
    CallerScan(Class<?> host, byte[] classFile) {
        this.host = host;
        hostNode = read(classFile);
    }

    private static ClassNode read(byte[] classFile) {
        ClassNode node = new ClassNode();
        new ClassReader(classFile).accept(node, ClassReader.SKIP_FRAMES);
        return node;
    }

    /** Returns the bodies that may have been passed, or an empty set if the call doesn't show it. */
    Set<Handle> bodies() {
        return StackWalker.getInstance(StackWalker.Option.RETAIN_CLASS_REFERENCE).walk(this::bodies);
    }

    /** Looks for the caller: the first frame outside the client. The frame above it is the client's method that it calls. */
    private Set<Handle> bodies(Stream<StackFrame> frames) {
        StackFrame called = null;
        CodeSource client = null;
        for (StackFrame frame : (Iterable<StackFrame>) frames::iterator) {
            Class<?> type = frame.getDeclaringClass();
            client = client == null && type.getName().startsWith(CLIENT) ? type.getProtectionDomain().getCodeSource() : client;
            if (type == host || !isOfTheClient(type, client)) {
                return called == null ? Set.of() : bodies(frame, called);
            }
            called = frame;
        }
        return Set.of();
    }

    private static boolean isOfTheClient(Class<?> type, CodeSource client) {
        String name = type.getName();
        return name.startsWith(CLIENT) && Objects.equals(client, type.getProtectionDomain().getCodeSource())
            || name.startsWith(CallerScan.class.getPackageName() + ".") || name.startsWith("java.lang.");
    }

    private Set<Handle> bodies(StackFrame caller, StackFrame called) {
        ClassNode node = node(caller.getDeclaringClass());
        MethodNode method = node == null ? null : Instructions.method(node, caller.getMethodName(), caller.getDescriptor());
        List<Set<AbstractInsnNode>> handedOver = new ArrayList<>();
        if (method != null) {
            ValueSources sources = new ValueSources(node);
            for (AbstractInsnNode at : method.instructions) {
                boolean calls = at instanceof MethodInsnNode it && it.name.equals(called.getMethodName()) && it.desc.equals(called.getDescriptor());
                if (calls && Instructions.line(at) == caller.getLineNumber()) {
                    handedOver.add(handedOver(sources, method, (MethodInsnNode) at));
                }
            }
        }
        Set<Handle> bodies = new HashSet<>();
        boolean isKnown = handedOver.stream().allMatch(it -> areLambdas(it, node == hostNode, bodies, true));
        return isKnown ? bodies : Set.of();
    }

    private ClassNode node(Class<?> type) {
        try {
            return type == host ? hostNode : read(LoadedProcessors.classFile(type));
        } catch (CompileException e) {
            // a class that was generated at run time has no class file to look in
            return null;
        }
    }

    /** Returns the origins of the processor argument of a call, or null if they aren't known. */
    private static Set<AbstractInsnNode> handedOver(ValueSources sources, MethodNode method, MethodInsnNode call) {
        Type[] types = Type.getArgumentTypes(call.desc);
        for (int i = 0; i < types.length; i++) {
            if (types[i].getDescriptor().equals(PROCESSOR)) {
                return sources.within(method, call, types.length - 1 - i);
            }
        }
        return null;
    }

    /** Returns whether the values are lambdas of the host, or final fields of the host that hold such lambdas. Adds the bodies of the lambdas. */
    private boolean areLambdas(Set<AbstractInsnNode> made, boolean isMadeByHost, Set<Handle> bodies, boolean mayBeFields) {
        if (made == null) {
            return false;
        }
        for (AbstractInsnNode source : made) {
            if (isMadeByHost && source instanceof InvokeDynamicInsnNode it && it.bsmArgs.length > 1 && it.bsmArgs[1] instanceof Handle body) {
                bodies.add(body);
            } else if (!(mayBeFields && source instanceof FieldInsnNode field && isFinal(field)
                && writes(field).stream().allMatch(it -> areLambdas(it, true, bodies, false)))) {
                return false;
            }
        }
        return true;
    }

    private boolean isFinal(FieldInsnNode field) {
        return field.owner.equals(hostNode.name)
            && hostNode.fields.stream().anyMatch(it -> it.name.equals(field.name) && (it.access & Opcodes.ACC_FINAL) != 0);
    }

    /** Returns the values that the host writes to a field; null for one that isn't known. */
    private List<Set<AbstractInsnNode>> writes(FieldInsnNode field) {
        List<Set<AbstractInsnNode>> all = new ArrayList<>();
        ValueSources sources = new ValueSources(hostNode);
        for (MethodNode method : hostNode.methods) {
            for (AbstractInsnNode at : method.instructions) {
                boolean writes = (at.getOpcode() == Opcodes.PUTSTATIC || at.getOpcode() == Opcodes.PUTFIELD)
                    && at instanceof FieldInsnNode it && it.name.equals(field.name) && it.owner.equals(hostNode.name);
                if (writes) {
                    all.add(sources.within(method, at, 0));
                }
            }
        }
        return all;
    }
}
