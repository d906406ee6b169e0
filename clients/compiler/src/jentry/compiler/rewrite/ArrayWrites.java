package jentry.compiler.rewrite;

import java.util.HashMap;
import java.util.Map;
import org.objectweb.asm.Opcodes;
import org.objectweb.asm.Type;
import org.objectweb.asm.tree.AbstractInsnNode;
import org.objectweb.asm.tree.ClassNode;
import org.objectweb.asm.tree.FieldInsnNode;
import org.objectweb.asm.tree.InvokeDynamicInsnNode;
import org.objectweb.asm.tree.MethodInsnNode;
import org.objectweb.asm.tree.MethodNode;
import jentry.compiler.profile.Instructions;
import jentry.compiler.profile.Problem;

/** Finds the arrays in fields that any method of a class may write to after the initialisers: their elements aren't constant. */
public final class ArrayWrites implements Opcodes {
    private final ClassNode owner;
    private final ValueSources sources;
    private final Map<String, Problem> found = new HashMap<>();

    private ArrayWrites(ClassNode owner) {
        this.owner = owner;
        sources = new ValueSources(owner);
    }

    /** Returns, for each field whose array is written or passed to unknown code, the place where that happens. */
    public static Map<String, Problem> of(ClassNode owner) {
        ArrayWrites writes = new ArrayWrites(owner);
        for (MethodNode method : owner.methods) {
            if (!method.name.equals("<clinit>")) {
                for (AbstractInsnNode at : method.instructions) {
                    writes.look(method, at);
                }
            }
        }
        return writes.found;
    }

    private void look(MethodNode method, AbstractInsnNode at) {
        int opcode = at.getOpcode();
        if (opcode >= IASTORE && opcode <= SASTORE && opcode != AASTORE) {
            add(method, at, 2, "is written");
        } else if (opcode == AASTORE || opcode == PUTSTATIC || opcode == PUTFIELD) {
            add(method, at, 0, "may be written, since the array is kept elsewhere");
        } else if (at instanceof MethodInsnNode call && Instructions.callee(owner, at) == null && !onlyReads(call)) {
            addArguments(method, at, call.desc, opcode == INVOKESTATIC ? 0 : 1);
        } else if (at instanceof InvokeDynamicInsnNode call) {
            addArguments(method, at, call.desc, 0);
        }
    }

    private static boolean onlyReads(MethodInsnNode call) {
        return call.owner.equals("java/util/Arrays") && call.name.equals("stream") || call.owner.startsWith("java/util/stream/")
            || call.owner.equals("jentry/compiler/library/GridMethods") && !call.name.equals("set");
    }

    private void addArguments(MethodNode method, AbstractInsnNode at, String descriptor, int receivers) {
        int count = Type.getArgumentTypes(descriptor).length + receivers;
        for (int below = 0; below < count; below++) {
            add(method, at, below, "may be written by what is called");
        }
    }

    private void add(MethodNode method, AbstractInsnNode at, int below, String what) {
        if (sources.origin(method, at, below) == null) {
            return;
        }
        for (AbstractInsnNode source : sources.of(method, at, below)) {
            boolean isStatic = source.getOpcode() == GETSTATIC;
            boolean reads = isStatic || source.getOpcode() == GETFIELD && !method.name.equals("<init>");
            if (reads && source instanceof FieldInsnNode field && field.owner.equals(owner.name) && field.desc.startsWith("[")) {
                found.putIfAbsent(field.name, Instructions.problem(owner, method, at, "an element of the array " + field.name + " " + what
                    + ", and the array is made at compile time", "write into an array that process makes"));
            }
        }
    }
}
