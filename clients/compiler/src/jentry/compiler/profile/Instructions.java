package jentry.compiler.profile;

import java.util.ArrayList;
import java.util.HashSet;
import java.util.List;
import java.util.Set;
import org.objectweb.asm.Opcodes;
import org.objectweb.asm.Type;
import org.objectweb.asm.tree.AbstractInsnNode;
import org.objectweb.asm.tree.ClassNode;
import org.objectweb.asm.tree.InsnList;
import org.objectweb.asm.tree.InsnNode;
import org.objectweb.asm.tree.IntInsnNode;
import org.objectweb.asm.tree.JumpInsnNode;
import org.objectweb.asm.tree.LabelNode;
import org.objectweb.asm.tree.LdcInsnNode;
import org.objectweb.asm.tree.LineNumberNode;
import org.objectweb.asm.tree.LookupSwitchInsnNode;
import org.objectweb.asm.tree.MethodInsnNode;
import org.objectweb.asm.tree.MethodNode;
import org.objectweb.asm.tree.TableSwitchInsnNode;

/** Helpers to inspect and create instructions. */
public final class Instructions implements Opcodes {
    private Instructions() { }

    /** Returns the next instruction, skipping labels and line numbers, or null. */
    public static AbstractInsnNode next(AbstractInsnNode at) {
        AbstractInsnNode found = at.getNext();
        while (found != null && found.getOpcode() < 0) {
            found = found.getNext();
        }
        return found;
    }

    /** Returns the previous instruction, skipping labels and line numbers, or null. */
    public static AbstractInsnNode previous(AbstractInsnNode at) {
        AbstractInsnNode found = at.getPrevious();
        while (found != null && found.getOpcode() < 0) {
            found = found.getPrevious();
        }
        return found;
    }

    /** Returns the previous instruction as {@link #previous(AbstractInsnNode)} does, or null if one of these labels, to which branches lead, is between. */
    public static AbstractInsnNode previous(AbstractInsnNode at, Set<LabelNode> targets) {
        AbstractInsnNode found = at.getPrevious();
        while (found != null && found.getOpcode() < 0) {
            if (found instanceof LabelNode label && targets.contains(label)) {
                return null;
            }
            found = found.getPrevious();
        }
        return found;
    }

    /** Returns the labels to which an instruction branches, the default of a switch last. */
    public static List<LabelNode> targets(AbstractInsnNode at) {
        if (at instanceof JumpInsnNode jump) {
            return List.of(jump.label);
        } else if (at instanceof TableSwitchInsnNode it) {
            return withLast(it.labels, it.dflt);
        }
        return at instanceof LookupSwitchInsnNode it ? withLast(it.labels, it.dflt) : List.of();
    }

    private static List<LabelNode> withLast(List<LabelNode> labels, LabelNode last) {
        List<LabelNode> all = new ArrayList<>(labels);
        all.add(last);
        return all;
    }

    /** Returns the labels to which the branches of some code lead; the handlers of exceptions aren't among them. */
    public static Set<LabelNode> targets(InsnList code) {
        Set<LabelNode> all = new HashSet<>();
        for (AbstractInsnNode at : code) {
            all.addAll(targets(at));
        }
        return all;
    }

    /** Returns the source line of an instruction, or -1. */
    public static int line(AbstractInsnNode at) {
        for (AbstractInsnNode before = at; before != null; before = before.getPrevious()) {
            if (before instanceof LineNumberNode line) {
                return line.line;
            }
        }
        return -1;
    }

    /** Returns the first source line of a method, or -1. */
    public static int line(MethodNode method) {
        for (AbstractInsnNode at : method.instructions) {
            if (at instanceof LineNumberNode line) {
                return line.line;
            }
        }
        return -1;
    }

    /** Returns the Integer or Long that an instruction pushes, or null. */
    public static Object pushed(AbstractInsnNode at) {
        int opcode = at == null ? -1 : at.getOpcode();
        if (opcode >= ICONST_M1 && opcode <= ICONST_5) {
            return opcode - ICONST_0;
        } else if (opcode == LCONST_0 || opcode == LCONST_1) {
            return (long) (opcode - LCONST_0);
        } else if (opcode == BIPUSH || opcode == SIPUSH) {
            return ((IntInsnNode) at).operand;
        } else if (opcode == LDC) {
            Object constant = ((LdcInsnNode) at).cst;
            return constant instanceof Integer || constant instanceof Long ? constant : null;
        }
        return null;
    }

    /** Returns the shortest instruction that pushes an Integer or a Long. */
    public static AbstractInsnNode push(Object value) {
        if (value instanceof Long number) {
            return number == 0 || number == 1 ? new InsnNode(LCONST_0 + (int) (long) number) : new LdcInsnNode(number);
        }
        int number = (Integer) value;
        if (number >= -1 && number <= 5) {
            return new InsnNode(ICONST_0 + number);
        } else if (number == (byte) number) {
            return new IntInsnNode(BIPUSH, number);
        }
        return number == (short) number ? new IntInsnNode(SIPUSH, number) : new LdcInsnNode(number);
    }

    /** Returns the instruction that discards a value of one slot or two. */
    public static InsnNode pop(int size) {
        return new InsnNode(size == 2 ? POP2 : POP);
    }

    /** Returns the method of the class that an instruction calls, or null. */
    public static MethodNode callee(ClassNode owner, AbstractInsnNode at) {
        if (!(at instanceof MethodInsnNode call) || !call.owner.equals(owner.name)) {
            return null;
        }
        return method(owner, call.name, call.desc);
    }

    /** Returns a method by name and descriptor, or null. */
    public static MethodNode method(ClassNode owner, String name, String descriptor) {
        for (MethodNode method : owner.methods) {
            if (method.name.equals(name) && method.desc.equals(descriptor)) {
                return method;
            }
        }
        return null;
    }

    /** Returns whether a method is static. */
    public static boolean isStatic(MethodNode method) {
        return (method.access & ACC_STATIC) != 0;
    }

    /** Returns the number of instructions of a method, without labels and line numbers. */
    public static int count(MethodNode method) {
        int count = 0;
        for (AbstractInsnNode at : method.instructions) {
            count += at.getOpcode() >= 0 ? 1 : 0;
        }
        return count;
    }

    /** Returns the source form of a class name. */
    public static String nameOf(String internal) {
        return Type.getObjectType(internal).getClassName();
    }

    /** Returns a problem at an instruction. */
    public static Problem problem(ClassNode owner, MethodNode method, AbstractInsnNode at, String what, String remedy) {
        return new Problem(nameOf(owner.name), method.name, line(at), what, remedy);
    }

    /** Returns a problem of a whole method. */
    public static Problem problem(ClassNode owner, MethodNode method, String what, String remedy) {
        return new Problem(nameOf(owner.name), method.name, line(method), what, remedy);
    }

    /** Returns a problem of a whole class. */
    public static Problem problem(ClassNode owner, String what, String remedy) {
        return new Problem(nameOf(owner.name), "", -1, what, remedy);
    }
}
