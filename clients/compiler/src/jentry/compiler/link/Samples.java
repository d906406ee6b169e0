package jentry.compiler.link;

import java.lang.reflect.Constructor;
import java.lang.reflect.InvocationTargetException;
import java.util.List;
import org.objectweb.asm.tree.ClassNode;
import org.objectweb.asm.tree.MethodNode;
import jentry.compiler.ProgramClasses;

/** Makes instances of processors at compile time. */
public final class Samples {
    private Samples() { }

    /** Returns an instance if all instances hold the same in their final fields and making one has no effect; else null. */
    public static Object of(ClassNode root, ProgramClasses program) {
        List<MethodNode> constructors = root.methods.stream().filter(it -> it.name.equals("<init>")).toList();
        boolean isPlain = constructors.size() == 1 && constructors.get(0).desc.equals("()V");
        if (!isPlain || program.find(root.name) == null || !Effects.isFreeToMake(new Classes(program, root), root.name)) {
            return null;
        }
        Class<?> type = program.load(root.name);
        try {
            Constructor<?> constructor = type == null ? null : type.getDeclaredConstructor();
            if (constructor == null) {
                return null;
            }
            constructor.setAccessible(true);
            return constructor.newInstance();
        } catch (InvocationTargetException | LinkageError e) {
            return null;
        } catch (ReflectiveOperationException | RuntimeException e) {
            return null;
        }
    }
}
