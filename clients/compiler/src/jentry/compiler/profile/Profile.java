package jentry.compiler.profile;

import java.util.ArrayList;
import java.util.List;
import java.util.Set;
import org.objectweb.asm.Opcodes;
import org.objectweb.asm.Type;
import org.objectweb.asm.tree.AbstractInsnNode;
import org.objectweb.asm.tree.ClassNode;
import org.objectweb.asm.tree.FieldInsnNode;
import org.objectweb.asm.tree.FrameNode;
import org.objectweb.asm.tree.IntInsnNode;
import org.objectweb.asm.tree.MethodInsnNode;
import org.objectweb.asm.tree.MethodNode;
import org.objectweb.asm.tree.TryCatchBlockNode;
import org.objectweb.asm.tree.TypeInsnNode;

/**
 * The rules by which the server refuses a class, as far as the compiler needs them.
 *
 * <p>The server refuses a class for every problem that is found here. So a class that the server accepts has none, and isn't changed. The reverse
 * doesn't hold: types, for example, are only checked by the server.
 */
public final class Profile implements Opcodes {
    /** What a check skips because later passes handle it. */
    public enum Stage {
        /** Skips loops, array lengths and the types of frames. */
        BEFORE_UNROLLING,
        /** Skips nothing. */
        COMPLETE
    }

    private static final String ARITHMETIC = "java/lang/ArithmeticException";
    private static final int MOST_METHODS = 256;
    private static final int LONGEST_ARRAY = 65_535;

    private final ClassNode owner;
    private final boolean complete;
    private final List<Problem> problems = new ArrayList<>();

    private Profile(ClassNode owner, Stage stage) {
        this.owner = owner;
        complete = stage == Stage.COMPLETE;
    }

    /** Returns all problems of a class, except for the length of the file and the bounds. */
    public static List<Problem> problems(ClassNode owner, Stage stage) {
        Profile profile = new Profile(owner, stage);
        profile.header();
        owner.methods.forEach(profile::method);
        if (profile.problems.isEmpty()) {
            try {
                CallGraph.check(owner);
            } catch (ProblemException e) {
                profile.problems.add(e.problem());
            }
        }
        return profile.problems;
    }

    private void header() {
        int version = owner.version & 0xFFFF;
        if (version != V1_7 && version != V1_8) {
            add("the class file is of Java version " + (version - V1_8 + 8), "compile with javac --release 8");
        }
        String kind = (owner.access & ACC_INTERFACE) != 0 ? "it is an interface" : (owner.access & ACC_ENUM) != 0 ? "it is an enum"
            : (owner.access & ACC_ABSTRACT) != 0 ? "it is abstract" : "java/lang/Object".equals(owner.superName) ? null
            : "it extends " + Instructions.nameOf(owner.superName);
        if (kind != null) {
            add(kind, "write a plain class that implements EntryProcessor");
        }
        if (!owner.interfaces.contains(Members.PROCESSOR)) {
            add("it doesn't name EntryProcessor among its interfaces", "write a plain class that implements EntryProcessor");
        }
        MethodNode process = Instructions.method(owner, "process", Members.PROCESS);
        if (process == null || (process.access & ACC_PUBLIC) == 0 || Instructions.isStatic(process)) {
            add("it has no public method process(MutableEntry, Object...)", "write process in the class itself");
        }
        if (owner.methods.size() > MOST_METHODS) {
            add("it has " + owner.methods.size() + " methods, and 256 are the most", "write fewer");
        }
        long constructors = owner.methods.stream().filter(it -> it.name.equals("<init>")).count();
        if (constructors != 1 && (owner.access & ACC_INTERFACE) == 0) {
            add("it has " + constructors + " constructors", "write no constructor, and hand values over as arguments");
        }
    }

    private void add(String what, String remedy) {
        add(Instructions.problem(owner, what, remedy));
    }

    private void add(MethodNode method, String what, String remedy) {
        add(Instructions.problem(owner, method, what, remedy));
    }

    private void method(MethodNode method) {
        if (method.name.equals("<clinit>")) {
            add(method, "code runs when the class is loaded", "write static final of numbers and of arrays of numbers");
        } else if ((method.access & (ACC_NATIVE | ACC_ABSTRACT)) != 0) {
            add(method, "the method has no code", "write it in Java");
        } else if (method.name.equals("<init>")) {
            constructor(method);
        } else {
            descriptor(method);
            if (!method.tryCatchBlocks.isEmpty()) {
                handlers(method);
            }
            int before = problems.size();
            Set<AbstractInsnNode> accepted = Throws.ofAccepted(owner, method);
            Set<AbstractInsnNode> inThrow = Throws.inside(method);
            for (AbstractInsnNode at : method.instructions) {
                if (!isAccepted(at) && !accepted.contains(at) && !inThrow.contains(at) && !belongsToHandler(method, at) && !belongsToNew(at)) {
                    add(Instructions.problem(owner, method, at, Remedies.what(at), Remedies.remedy(at)));
                }
            }
            if (complete && problems.size() == before) {
                flow(method);
            }
        }
    }

    /** Returns whether javac generated the instruction for `finally` or `synchronized`. Such instructions are reported once, for the handler. */
    private static boolean belongsToHandler(MethodNode method, AbstractInsnNode at) {
        boolean ends = at.getOpcode() == ATHROW || at.getOpcode() == MONITORENTER || at.getOpcode() == MONITOREXIT;
        return ends && method.tryCatchBlocks.stream().anyMatch(it -> it.type == null);
    }

    /** Returns whether the instruction is a constructor call. It isn't reported because the NEW before it is. */
    private static boolean belongsToNew(AbstractInsnNode at) {
        return at instanceof MethodInsnNode call && call.name.equals("<init>");
    }

    private void add(Problem problem) {
        if (!problems.contains(problem)) {
            problems.add(problem);
        }
    }

    private void constructor(MethodNode method) {
        AbstractInsnNode first = method.instructions.getFirst();
        AbstractInsnNode at = first == null ? null : first.getOpcode() >= 0 ? first : Instructions.next(first);
        boolean plain = method.desc.equals("()V") && Instructions.count(method) == 3 && at.getOpcode() == ALOAD
            && Instructions.next(at) instanceof MethodInsnNode call && call.owner.equals("java/lang/Object");
        if (!plain) {
            String why = method.desc.equals("()V") ? "the constructor does more than call that of Object" : "the constructor takes values from outside";
            add(method, why, "hand values over as arguments of the call, and make fields static final");
        }
    }

    private void descriptor(MethodNode method) {
        List<Type> types = new ArrayList<>(List.of(Type.getArgumentTypes(method.desc)));
        types.add(Type.getReturnType(method.desc));
        for (Type type : types) {
            if (!Members.isKnown(owner.name, type)) {
                boolean result = type == types.get(types.size() - 1);
                String remedy = method.name.equals("process") ? "return a Long, an Integer, a Boolean or null from process"
                    : "use int, long, boolean, Object, Number, Long, Integer, Boolean, Void, the entry, int[] or long[]";
                add(method, "a " + (result ? "result" : "parameter") + " of type " + type.getClassName(), remedy);
                return;
            }
        }
    }

    private void handlers(MethodNode method) {
        TryCatchBlockNode block = method.tryCatchBlocks.stream().filter(it -> !ARITHMETIC.equals(it.type)).findFirst().orElse(method.tryCatchBlocks.get(0));
        String what = block.type == null ? "finally, or a synchronized block" : "catch (" + Instructions.nameOf(block.type) + ")";
        add(Instructions.problem(owner, method, lineOf(block), what,
            "test before you act: of exceptions ArithmeticException alone can be caught"));
    }

    /** Returns an instruction within the range, because the line number comes after the label. */
    private static AbstractInsnNode lineOf(TryCatchBlockNode block) {
        AbstractInsnNode first = Instructions.next(block.start);
        return first == null ? block.start : first;
    }

    private boolean isAccepted(AbstractInsnNode at) {
        int opcode = at.getOpcode();
        if (at instanceof MethodInsnNode call) {
            return Members.isKnown(owner, call);
        } else if (opcode == LDC) {
            return Instructions.pushed(at) != null;
        } else if (opcode == NEWARRAY) {
            int kind = ((IntInsnNode) at).operand;
            return kind == T_INT || kind == T_LONG;
        } else if (opcode == GETSTATIC) {
            return Members.isConstant((FieldInsnNode) at);
        } else if (opcode == CHECKCAST || opcode == INSTANCEOF) {
            return Members.isKnown(owner.name, ((TypeInsnNode) at).desc);
        }
        return isInTable(opcode);
    }

    private static boolean isInTable(int opcode) {
        return switch (opcode) {
            case FCONST_0, FCONST_1, FCONST_2, DCONST_0, DCONST_1, FLOAD, DLOAD, FALOAD, DALOAD, BALOAD, CALOAD, SALOAD -> false;
            case FSTORE, DSTORE, FASTORE, DASTORE, AASTORE, BASTORE, CASTORE, SASTORE -> false;
            case FADD, DADD, FSUB, DSUB, FMUL, DMUL, FDIV, DDIV, FREM, DREM, FNEG, DNEG -> false;
            case I2F, I2D, L2F, L2D, F2I, F2L, F2D, D2I, D2L, D2F, FCMPL, FCMPG, DCMPL, DCMPG -> false;
            case IF_ACMPEQ, IF_ACMPNE, JSR, RET, FRETURN, DRETURN -> false;
            case PUTSTATIC, GETFIELD, PUTFIELD, INVOKEDYNAMIC, NEW, ANEWARRAY, ATHROW -> false;
            case MONITORENTER, MONITOREXIT, MULTIANEWARRAY -> false;
            default -> true;
        };
    }

    private void flow(MethodNode method) {
        for (AbstractInsnNode at : method.instructions) {
            if (at instanceof FrameNode frame) {
                frame(method, frame);
            } else if (at.getOpcode() == NEWARRAY) {
                Object length = Instructions.pushed(Instructions.previous(at));
                if (!(length instanceof Integer n) || n < 0 || n > LONGEST_ARRAY) {
                    add(Instructions.problem(owner, method, at, "the length of a new array isn't a constant from 0 to 65,535",
                        "make the array of the greatest length, and keep a count beside it"));
                }
            } else if (leadsBack(method, at)) {
                add(Instructions.problem(owner, method, at, "a branch leads back", "write a loop that a counter ends"));
            }
        }
    }

    private static boolean leadsBack(MethodNode method, AbstractInsnNode at) {
        int place = method.instructions.indexOf(at);
        return Instructions.targets(at).stream().anyMatch(it -> method.instructions.indexOf(it) < place);
    }

    private void frame(MethodNode method, FrameNode frame) {
        List<Object> types = new ArrayList<>(frame.local == null ? List.of() : frame.local);
        types.addAll(frame.stack == null ? List.of() : frame.stack);
        for (Object type : types) {
            if (type instanceof String name && !Members.isKnown(owner.name, name) || FLOAT.equals(type) || DOUBLE.equals(type)) {
                add(Instructions.problem(owner, method, frame, "a local of type " + type + " where ways meet",
                    "declare it as Object, Number, Long, Integer or Boolean"));
                return;
            }
        }
    }
}
