package jentry.compiler.profile;

import java.util.ArrayList;
import java.util.Collections;
import java.util.IdentityHashMap;
import java.util.List;
import java.util.Set;
import org.objectweb.asm.Opcodes;
import org.objectweb.asm.tree.AbstractInsnNode;
import org.objectweb.asm.tree.ClassNode;
import org.objectweb.asm.tree.FrameNode;
import org.objectweb.asm.tree.LabelNode;
import org.objectweb.asm.tree.LdcInsnNode;
import org.objectweb.asm.tree.MethodInsnNode;
import org.objectweb.asm.tree.MethodNode;
import org.objectweb.asm.tree.TypeInsnNode;

/**
 * Finds the instructions of `throw new X(..)`: those that the server accepts, as one instruction and one step, and those that are one problem and not one
 * for each of them.
 */
public final class Throws implements Opcodes {
    /** The exceptions that a processor can throw, by their internal names. */
    public static final Set<String> ACCEPTED = Set.of("java/lang/ArithmeticException", "java/lang/IllegalArgumentException",
        "java/lang/IllegalStateException", "java/lang/UnsupportedOperationException", "javax/cache/processor/EntryProcessorException");
    /** The descriptor of a constructor with a text. */
    public static final String WITH_TEXT = "(Ljava/lang/String;)V";

    private Throws() { }

    /**
     * A throw that the server accepts.
     *
     * @param type the internal name of the exception
     * @param instructions its instructions, from NEW to ATHROW
     */
    public record Form(String type, List<AbstractInsnNode> instructions) { }

    /** Returns the throws of a method that the server accepts: NEW, DUP, perhaps the LDC of a text, the constructor's INVOKESPECIAL, and ATHROW. */
    public static List<Form> accepted(ClassNode owner, MethodNode method) {
        List<Form> all = new ArrayList<>();
        Set<LabelNode> targets = null;
        for (AbstractInsnNode at : method.instructions) {
            if (at.getOpcode() == NEW && isAccepted(owner, ((TypeInsnNode) at).desc)) {
                targets = targets == null ? Instructions.targets(method.instructions) : targets;
                Form form = form((TypeInsnNode) at, targets);
                if (form != null) {
                    all.add(form);
                }
            }
        }
        return all;
    }

    /** Returns the instructions of the throws of a method that the server accepts. */
    static Set<AbstractInsnNode> ofAccepted(ClassNode owner, MethodNode method) {
        Set<AbstractInsnNode> all = Collections.newSetFromMap(new IdentityHashMap<>());
        accepted(owner, method).forEach(it -> all.addAll(it.instructions));
        return all;
    }

    /** Returns whether an exception of this class can be thrown. A class that has the name of an exception means itself by it. */
    private static boolean isAccepted(ClassNode owner, String type) {
        return ACCEPTED.contains(type) && !owner.name.equals(type);
    }

    private static Form form(TypeInsnNode made, Set<LabelNode> targets) {
        List<AbstractInsnNode> all = new ArrayList<>(List.of(made));
        for (AbstractInsnNode at = made.getNext(); at != null && all.size() < 5; at = at.getNext()) {
            if (at instanceof FrameNode || at instanceof LabelNode label && targets.contains(label)) {
                return null;
            } else if (at.getOpcode() >= 0) {
                all.add(at);
                if (at.getOpcode() == ATHROW) {
                    break;
                }
            }
        }
        boolean hasText = all.size() == 5;
        boolean isForm = all.size() >= 4 && all.get(1).getOpcode() == DUP && (!hasText || isText(all.get(2)))
            && isConstructor(all.get(all.size() - 2), made.desc, hasText ? WITH_TEXT : "()V") && all.get(all.size() - 1).getOpcode() == ATHROW;
        return isForm ? new Form(made.desc, List.copyOf(all)) : null;
    }

    private static boolean isText(AbstractInsnNode at) {
        return at instanceof LdcInsnNode it && it.cst instanceof String;
    }

    private static boolean isConstructor(AbstractInsnNode at, String type, String descriptor) {
        return at instanceof MethodInsnNode call && call.name.equals("<init>") && call.owner.equals(type) && call.desc.equals(descriptor);
    }

    /** Returns the steps of an instruction of an accepted class, without those of a method that it calls: a throw is one step, which its ATHROW has. */
    public static int steps(AbstractInsnNode at) {
        boolean isOfThrow = at.getOpcode() == NEW || isText(at) || at instanceof MethodInsnNode call && call.name.equals("<init>")
            || at.getOpcode() == DUP && Instructions.previous(at) != null && Instructions.previous(at).getOpcode() == NEW;
        return isOfThrow ? 0 : 1;
    }

    /** Returns the instructions of a method between each NEW of an exception and its ATHROW, which has them. */
    static Set<AbstractInsnNode> inside(MethodNode method) {
        Set<AbstractInsnNode> inside = Collections.newSetFromMap(new IdentityHashMap<>());
        for (AbstractInsnNode at : method.instructions) {
            AbstractInsnNode end = at.getOpcode() == NEW && !inside.contains(at) ? throwOf(at) : null;
            for (AbstractInsnNode next = at; end != null && next != end; ) {
                next = next.getNext();
                inside.add(next);
            }
        }
        return inside;
    }

    /** Returns whether a NEW makes an exception that is thrown at once. */
    static boolean isThrown(AbstractInsnNode at) {
        return throwOf(at) != null;
    }

    private static AbstractInsnNode throwOf(AbstractInsnNode made) {
        String name = ((TypeInsnNode) made).desc;
        if (!name.endsWith("Exception") && !name.endsWith("Error")) {
            return null;
        }
        for (AbstractInsnNode at = made.getNext(); at != null; at = at.getNext()) {
            int opcode = at.getOpcode();
            if (opcode == ATHROW) {
                return at;
            } else if (opcode >= IRETURN && opcode <= RETURN || opcode >= ISTORE && opcode <= SASTORE && opcode != AASTORE) {
                return null;
            }
        }
        return null;
    }
}
