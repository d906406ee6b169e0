package jentry.compiler.profile;

import java.util.Set;
import org.objectweb.asm.Opcodes;
import org.objectweb.asm.tree.AbstractInsnNode;
import org.objectweb.asm.tree.FieldInsnNode;
import org.objectweb.asm.tree.IntInsnNode;
import org.objectweb.asm.tree.InvokeDynamicInsnNode;
import org.objectweb.asm.tree.LdcInsnNode;
import org.objectweb.asm.tree.MethodInsnNode;
import org.objectweb.asm.tree.MultiANewArrayInsnNode;
import org.objectweb.asm.tree.TypeInsnNode;

/** Names the Java construct of an instruction outside the profile, and what to write instead. */
final class Remedies implements Opcodes {
    private static final String FIXED_POINT = "reckon in long with a fixed point, as v * 119 / 100";
    private static final Set<String> READS_CLOCK = Set.of("now", "millis", "instant", "systemUTC", "systemDefaultZone");
    private static final String THROW = "throw a new IllegalArgumentException, IllegalStateException, UnsupportedOperationException, ArithmeticException or "
        + "EntryProcessorException";
    private static final String TEXT = "hand it nothing, or one text of constants and numbers that are joined there; a cause can't be handed on";
    private static final String RETHROW = "throw a new exception at once, or return a code";

    private Remedies() { }

    /** Returns the construct in terms of the source. */
    static String what(AbstractInsnNode at) {
        if (at instanceof MethodInsnNode call) {
            return "a call of " + Instructions.nameOf(call.owner) + "." + call.name + ", which the server doesn't know";
        } else if (at instanceof FieldInsnNode field) {
            boolean writes = at.getOpcode() == PUTFIELD || at.getOpcode() == PUTSTATIC;
            return "the field " + Instructions.nameOf(field.owner) + "." + field.name + " is " + (writes ? "written" : "read");
        } else if (at instanceof TypeInsnNode type && at.getOpcode() != ANEWARRAY) {
            String name = Instructions.nameOf(type.desc);
            return at.getOpcode() != NEW ? "a cast to, or a test for, " + name : Throws.isThrown(at) ? "throw new " + name : "new " + name;
        } else if (at instanceof InvokeDynamicInsnNode it) {
            return it.bsm.getName().startsWith("makeConcat") ? "a text is joined" : "a lambda, a method reference or a switch by patterns";
        } else if (at instanceof LdcInsnNode it) {
            return it.cst instanceof String ? "a text" : it.cst instanceof Float ? "float" : it.cst instanceof Double ? "double" : "a class literal";
        }
        return byOpcode(at);
    }

    private static String byOpcode(AbstractInsnNode at) {
        return switch (at.getOpcode()) {
            case IF_ACMPEQ, IF_ACMPNE -> "references are compared by == or !=";
            case NEWARRAY -> "a new array of " + (((IntInsnNode) at).operand == T_FLOAT ? "float" : "double");
            case ANEWARRAY -> "a new array of " + Instructions.nameOf(((TypeInsnNode) at).desc);
            case AASTORE -> "a reference is stored into an array";
            case MULTIANEWARRAY -> "a new array of arrays, " + Instructions.nameOf(((MultiANewArrayInsnNode) at).desc);
            case ATHROW -> "throw";
            case MONITORENTER, MONITOREXIT -> "a synchronized block";
            case JSR, RET -> "a subroutine of an old compiler";
            default -> ofNumbers(at.getOpcode());
        };
    }

    /** Returns which type an instruction has that isn't int or long. */
    private static String ofNumbers(int opcode) {
        return switch (opcode) {
            case BALOAD, BASTORE -> "an element of an array of byte or boolean";
            case CALOAD, CASTORE -> "an element of an array of char";
            case SALOAD, SASTORE -> "an element of an array of short";
            case FCONST_0, FCONST_1, FCONST_2, FLOAD, FALOAD, FSTORE, FASTORE, FADD, FSUB, FMUL, FDIV, FREM, FNEG, FCMPL, FCMPG, FRETURN, I2F, L2F, F2I,
                F2L -> "float";
            case F2D, D2F -> "float and double";
            default -> "double";
        };
    }

    /** Returns what to write instead. */
    static String remedy(AbstractInsnNode at) {
        if (at instanceof MethodInsnNode call) {
            return ofCall(call);
        } else if (at instanceof FieldInsnNode field) {
            return ofField(field);
        } else if (at instanceof TypeInsnNode && at.getOpcode() != ANEWARRAY) {
            return at.getOpcode() != NEW ? "cast to Long, Integer, Number or Object"
                : Throws.isThrown(at) ? Throws.ACCEPTED.contains(((TypeInsnNode) at).desc) ? TEXT : THROW : "use locals, or a long that packs several numbers";
        } else if (at instanceof InvokeDynamicInsnNode) {
            return "write a method of the class; use numbers as codes in place of texts";
        } else if (at instanceof LdcInsnNode it) {
            return it.cst instanceof Float || it.cst instanceof Double ? FIXED_POINT : "use numbers as codes";
        }
        return switch (at.getOpcode()) {
            case IF_ACMPEQ, IF_ACMPNE -> "compare by equals, or by longValue()";
            case ANEWARRAY, AASTORE -> "use long[], long... or parameters one by one";
            case MULTIANEWARRAY -> "use one array, with the index width * i + j";
            case ATHROW -> RETHROW;
            case MONITORENTER, MONITOREXIT -> "drop synchronized: each run has an instance of its own";
            case JSR, RET -> "compile with javac --release 8 or later";
            default -> FIXED_POINT;
        };
    }

    private static String ofCall(MethodInsnNode call) {
        String owner = call.owner;
        if (call.name.equals("arraycopy") || call.name.equals("clone") || call.name.startsWith("copyOf")) {
            return "copy the elements by a loop";
        } else if (owner.startsWith("java/util/stream/") || call.desc.contains("java/util/stream/") || owner.startsWith("java/util/function/")) {
            return "write a loop over the arguments, or over an array of known length";
        } else if (owner.startsWith("java/util/Optional") || owner.equals("java/util/Objects")) {
            return "test for null";
        } else if (owner.startsWith("java/util/") || owner.startsWith("java/lang/Str") || owner.equals("java/io/PrintStream")) {
            return "use long[] and int[], numbers as codes, and the result for what is to be seen";
        } else if (owner.equals("java/lang/System") || owner.startsWith("java/time/") && READS_CLOCK.contains(call.name)) {
            return "hand the time over as an argument: a processor has no clock";
        } else if (owner.startsWith("java/time/") || owner.startsWith("java/math/")) {
            return "reckon with numbers: times as long in one unit, days from 1970, amounts in the smallest coin";
        } else if (owner.equals("java/lang/Math") || owner.equals("java/lang/StrictMath") || owner.equals("java/lang/Double")) {
            return FIXED_POINT;
        }
        return "write it as a method of the class";
    }

    private static String ofField(FieldInsnNode field) {
        return switch (field.getOpcode()) {
            case GETFIELD, PUTFIELD -> "use locals, arguments or the entry's value, and final for what is constant";
            default -> "use arguments, locals, the entry's value, or static final for what is constant; numbers as codes in place of an enum";
        };
    }
}
