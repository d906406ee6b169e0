package jentry.compiler.link;

import java.util.ArrayDeque;
import java.util.Deque;
import java.util.HashMap;
import java.util.Map;
import org.objectweb.asm.ClassReader;
import org.objectweb.asm.Opcodes;
import org.objectweb.asm.tree.ClassNode;
import org.objectweb.asm.tree.FieldNode;
import org.objectweb.asm.tree.MethodNode;
import jentry.compiler.ProgramClasses;
import jentry.compiler.profile.Instructions;

/** The class files of a program, parsed, and the members that names in them refer to (JVMS 5.4.3). */
final class Classes implements Opcodes {
    /** A method and the class that declares it. */
    record Method(ClassNode owner, MethodNode node) { }

    /** A field and the class that declares it. */
    record Field(ClassNode owner, FieldNode node) { }

    private final ProgramClasses program;
    private final Map<String, ClassNode> known = new HashMap<>();

    /** Creates the classes of a program. */
    Classes(ProgramClasses program, ClassNode... given) {
        this.program = program;
        for (ClassNode node : given) {
            add(node);
        }
    }

    void add(ClassNode node) {
        known.put(node.name, node);
    }

    /** Returns a class by its internal name, or null if it isn't there or belongs to Java. */
    ClassNode get(String name) {
        if (!known.containsKey(name)) {
            known.put(name, read(name));
        }
        return known.get(name);
    }

    private ClassNode read(String name) {
        byte[] bytes = program.find(name);
        if (bytes == null) {
            return null;
        }
        try {
            ClassNode node = new ClassNode();
            new ClassReader(bytes).accept(node, ClassReader.SKIP_FRAMES);
            return node;
        } catch (RuntimeException e) {
            // a class file of a newer Java, or a damaged one
            return null;
        }
    }

    boolean isEnum(String name) {
        ClassNode node = ProgramClasses.isOfPlatform(name) ? null : get(name);
        return node != null && ((node.access & ACC_ENUM) != 0 || node.superName != null && !node.superName.equals("java/lang/Object") && isEnum(node.superName));
    }

    /** Returns the method that a call on an object of this class runs, or null. */
    Method virtual(String exact, String name, String descriptor) {
        for (ClassNode at = get(exact); at != null; at = at.superName == null ? null : get(at.superName)) {
            MethodNode found = Instructions.method(at, name, descriptor);
            if (found != null) {
                return (found.access & ACC_ABSTRACT) == 0 ? new Method(at, found) : null;
            }
        }
        return byDefault(exact, name, descriptor);
    }

    /** Returns the default method that no other one overrides, or null. */
    private Method byDefault(String exact, String name, String descriptor) {
        Deque<String> open = new ArrayDeque<>();
        Method best = null;
        for (String at = exact; at != null && get(at) != null; at = get(at).superName) {
            open.addAll(get(at).interfaces);
        }
        while (!open.isEmpty()) {
            ClassNode node = get(open.poll());
            if (node == null) {
                continue;
            }
            open.addAll(node.interfaces);
            MethodNode found = Instructions.method(node, name, descriptor);
            boolean isDefault = found != null && (found.access & (ACC_ABSTRACT | ACC_STATIC | ACC_PRIVATE)) == 0;
            if (isDefault && (best == null || isBelow(node.name, best.owner.name))) {
                best = new Method(node, found);
            }
        }
        return best;
    }

    /** Returns whether a class or interface is another one, or extends or implements it. */
    boolean isBelow(String name, String other) {
        if (name.equals(other)) {
            return true;
        }
        ClassNode node = get(name);
        return node != null && (node.superName != null && isBelow(node.superName, other) || node.interfaces.stream().anyMatch(it -> isBelow(it, other)));
    }

    /** Returns the field that a name refers to, also an inherited one, or null. */
    Field field(String owner, String name, String descriptor) {
        ClassNode node = get(owner);
        if (node == null) {
            return null;
        }
        for (FieldNode field : node.fields) {
            if (field.name.equals(name) && field.desc.equals(descriptor)) {
                return new Field(node, field);
            }
        }
        for (String above : node.interfaces) {
            Field found = field(above, name, descriptor);
            if (found != null) {
                return found;
            }
        }
        return node.superName == null ? null : field(node.superName, name, descriptor);
    }

    ProgramClasses program() {
        return program;
    }
}
