package jentry.compiler.link;

import java.lang.invoke.MethodType;
import java.lang.reflect.InvocationTargetException;
import java.lang.reflect.Method;
import java.util.ArrayList;
import java.util.List;
import java.util.Set;
import org.objectweb.asm.Opcodes;
import org.objectweb.asm.tree.MethodInsnNode;
import org.objectweb.asm.tree.analysis.BasicValue;

/** Computes with objects of Java's value classes at compile time, where all operands are known. */
final class JavaValues implements Opcodes {
    private static final Set<String> NOT = Set.of("now", "random", "getClass", "hashCode", "sleep", "wait", "notify", "notifyAll", "systemDefault");

    private JavaValues() { }

    /** Returns the value of a static final field of a value class, or null. */
    static Object constant(String owner, String name) {
        try {
            return Class.forName(owner.replace('/', '.')).getField(name).get(null);
        } catch (ReflectiveOperationException | LinkageError e) {
            return null;
        }
    }

    /** Returns the result of a call of a method of a value class, or null if an operand isn't known or the method throws. */
    static Object result(MethodInsnNode call, List<? extends BasicValue> operands) {
        if (!Representation.isValue(call.owner) || NOT.contains(call.name) || call.name.startsWith("<")) {
            return null;
        }
        List<Object> values = new ArrayList<>();
        for (BasicValue operand : operands) {
            if (!(Known.place(operand) instanceof Known.Fixed fixed)) {
                return null;
            }
            values.add(fixed.object());
        }
        try {
            Class<?> type = Class.forName(call.owner.replace('/', '.'));
            MethodType descriptor = MethodType.fromMethodDescriptorString(call.desc, JavaValues.class.getClassLoader());
            Method method = type.getMethod(call.name, descriptor.parameterArray());
            Object receiver = call.getOpcode() == INVOKESTATIC ? null : values.remove(0);
            for (int i = 0; i < values.size(); i++) {
                Class<?> parameter = descriptor.parameterType(i);
                boolean isInt = parameter == int.class || parameter == long.class || !parameter.isPrimitive();
                if (!isInt) {
                    return null;
                }
            }
            Object result = method.invoke(receiver, values.toArray());
            boolean isUsable = result instanceof Integer || result instanceof Long || result instanceof Boolean || result != null
                && Representation.isValue(result.getClass().getName().replace('.', '/'));
            return !isUsable ? null : result instanceof Boolean it ? (Object) (it ? 1 : 0) : result;
        } catch (InvocationTargetException e) {
            return null;
        } catch (ReflectiveOperationException | IllegalArgumentException | TypeNotPresentException e) {
            return null;
        }
    }
}
