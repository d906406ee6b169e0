package jentry.compiler.rewrite;

import java.util.ArrayList;
import java.util.HashSet;
import java.util.List;
import java.util.Map;
import java.util.Set;
import java.util.function.Predicate;
import org.objectweb.asm.Opcodes;
import org.objectweb.asm.Type;
import org.objectweb.asm.tree.AbstractInsnNode;
import org.objectweb.asm.tree.ClassNode;
import org.objectweb.asm.tree.InsnList;
import org.objectweb.asm.tree.InsnNode;
import org.objectweb.asm.tree.InvokeDynamicInsnNode;
import org.objectweb.asm.tree.LabelNode;
import org.objectweb.asm.tree.LdcInsnNode;
import org.objectweb.asm.tree.MethodInsnNode;
import org.objectweb.asm.tree.MethodNode;
import org.objectweb.asm.tree.TypeInsnNode;
import org.objectweb.asm.tree.VarInsnNode;
import org.objectweb.asm.tree.analysis.Analyzer;
import org.objectweb.asm.tree.analysis.AnalyzerException;
import jentry.compiler.profile.Instructions;
import jentry.compiler.profile.Throws;

/**
 * Gives the exceptions that a processor throws constant texts: of a text that is joined at run time the constant parts stay.
 *
 * <p>What is joined is still computed in its order, since it may throw, and then dropped. While that is done there is null in place of each text.
 */
public final class ThrownTexts implements Opcodes {
    private final MethodNode method;
    private final TextInterpreter texts;
    private final List<AbstractInsnNode> pops = new ArrayList<>();

    private ThrownTexts(MethodNode method, TextInterpreter texts) {
        this.method = method;
        this.texts = texts;
    }

    /**
     * Rewrites the throws of a method that get a text which isn't one constant.
     *
     * @param isPlain tells of a class of the program whether its objects, as texts, have no effect and don't throw
     * @return how many there were
     */
    public static int simplify(ClassNode owner, MethodNode method, Predicate<String> isPlain) {
        Set<AbstractInsnNode> accepted = new HashSet<>();
        Throws.accepted(owner, method).forEach(it -> accepted.addAll(it.instructions()));
        boolean hasOthers = false;
        for (AbstractInsnNode at : method.instructions) {
            hasOthers |= isOfException(owner, at) && !accepted.contains(at);
        }
        if (!hasOthers) {
            return 0;
        }
        TextInterpreter texts = new TextInterpreter(isPlain);
        try {
            new Analyzer<>(texts).analyze(owner.name, method);
        } catch (AnalyzerException e) {
            throw new IllegalStateException("the code of " + method.name + " isn't well formed", e);
        }
        return new ThrownTexts(method, texts).simplify(owner, accepted);
    }

    private static boolean isOfException(ClassNode owner, AbstractInsnNode at) {
        return at.getOpcode() == NEW && Throws.ACCEPTED.contains(((TypeInsnNode) at).desc) && !owner.name.equals(((TypeInsnNode) at).desc);
    }

    private int simplify(ClassNode owner, Set<AbstractInsnNode> accepted) {
        List<MethodInsnNode> found = new ArrayList<>();
        texts.exceptions().forEach((constructor, made) -> {
            if (!accepted.contains(constructor) && isSimple(owner, constructor, made)) {
                found.add((MethodInsnNode) constructor);
            }
        });
        found.forEach(it -> simplify(it, texts.exceptions().get(it)));
        while (dropDiscarded()) {
            // what is left may be discarded too
        }
        return found.size();
    }

    /** Returns whether an exception is thrown at once, and the known text that it gets is made for it alone. */
    private boolean isSimple(ClassNode owner, AbstractInsnNode constructor, TextInterpreter.Made made) {
        AbstractInsnNode exception = made.exception().makers().iterator().next();
        AbstractInsnNode end = Instructions.next(constructor);
        boolean isThrown = made.exception().makers().size() == 1 && isOfException(owner, exception) && Instructions.next(exception).getOpcode() == DUP
            && end != null && end.getOpcode() == ATHROW;
        if (!isThrown || made.text().text() == null) {
            return false;
        }
        Set<AbstractInsnNode> makers = new HashSet<>(made.text().makers());
        makers.add(exception);
        return makers.stream().noneMatch(it -> texts.usedElsewhere().contains(it) || isOfAnother(constructor, it));
    }

    private boolean isOfAnother(AbstractInsnNode constructor, AbstractInsnNode maker) {
        for (Map.Entry<AbstractInsnNode, TextInterpreter.Made> it : texts.exceptions().entrySet()) {
            if (it.getKey() != constructor && (it.getValue().text().makers().contains(maker) || it.getValue().exception().makers().contains(maker))) {
                return true;
            }
        }
        return false;
    }

    private void simplify(MethodInsnNode constructor, TextInterpreter.Made made) {
        AbstractInsnNode exception = made.exception().makers().iterator().next();
        method.instructions.remove(Instructions.next(exception));
        method.instructions.remove(exception);
        made.text().makers().forEach(this::replaceMaker);
        InsnList code = new InsnList();
        pop(code, 1);
        code.add(new TypeInsnNode(NEW, constructor.owner));
        code.add(new InsnNode(DUP));
        code.add(new LdcInsnNode(made.text().text()));
        method.instructions.insertBefore(constructor, code);
    }

    private void pop(InsnList code, int size) {
        AbstractInsnNode pop = Instructions.pop(size);
        pops.add(pop);
        code.add(pop);
    }

    private void pop(InsnList code, Type... types) {
        for (int i = types.length - 1; i >= 0; i--) {
            pop(code, types[i].getSize());
        }
    }

    private void replace(AbstractInsnNode at, InsnList code) {
        method.instructions.insertBefore(at, code);
        method.instructions.remove(at);
    }

    /** Replaces an instruction that makes a text, a builder or the array of a format by one that leaves null. */
    private void replaceMaker(AbstractInsnNode at) {
        InsnList code = new InsnList();
        if (at.getOpcode() == NEW) {
            InsnList ofConstructor = new InsnList();
            pop(ofConstructor, 1);
            replace(texts.constructor(at), ofConstructor);
        } else if (at.getOpcode() == ANEWARRAY) {
            pop(code, 1);
            texts.writes(at).forEach(write -> {
                InsnList ofWrite = new InsnList();
                pop(ofWrite, 1);
                pop(ofWrite, 1);
                pop(ofWrite, 1);
                replace(write, ofWrite);
            });
        } else if (at instanceof InvokeDynamicInsnNode it) {
            pop(code, Type.getArgumentTypes(it.desc));
        } else if (at instanceof MethodInsnNode call) {
            replaceCall(call);
            return;
        }
        code.add(new InsnNode(ACONST_NULL));
        replace(at, code);
    }

    private void replaceCall(MethodInsnNode call) {
        InsnList code = new InsnList();
        boolean isOfBuilder = call.owner.equals(TextInterpreter.BUILDER);
        if (isOfBuilder || call.name.startsWith("format")) {
            // the null of the builder, or of the format, stays
            Type[] types = Type.getArgumentTypes(call.desc);
            pop(code, types.length == 2 ? new Type[] {types[1]} : types);
        } else if (call.getOpcode() == INVOKESTATIC) {
            pop(code, Type.getArgumentTypes(call.desc));
            code.add(new InsnNode(ACONST_NULL));
        } else {
            MethodInsnNode number = number(call.owner);
            code.add(number);
            pop(code, Type.getReturnType(number.desc));
            code.add(new InsnNode(ACONST_NULL));
        }
        replace(call, code);
    }

    /** Returns the call that throws if the receiver of toString is null, as that does. */
    private static MethodInsnNode number(String type) {
        return switch (type) {
            case "java/lang/Long" -> new MethodInsnNode(INVOKEVIRTUAL, type, "longValue", "()J", false);
            case "java/lang/Integer" -> new MethodInsnNode(INVOKEVIRTUAL, type, "intValue", "()I", false);
            case "java/lang/Boolean" -> new MethodInsnNode(INVOKEVIRTUAL, type, "booleanValue", "()Z", false);
            default -> new MethodInsnNode(INVOKEVIRTUAL, type, "ordinal", "()I", false);
        };
    }

    // ---- what is pushed to be dropped

    private boolean dropDiscarded() {
        Set<LabelNode> targets = Instructions.targets(method.instructions);
        boolean changed = false;
        for (AbstractInsnNode pop : List.copyOf(pops)) {
            AbstractInsnNode before = Instructions.previous(pop, targets);
            int size = pop.getOpcode() == POP2 ? 2 : 1;
            if (before == null) {
                continue;
            } else if (isPush(before, size)) {
                method.instructions.remove(before);
                method.instructions.remove(pop);
                pops.remove(pop);
                changed = true;
            } else if (size == 1 && boxed(before) != null) {
                AbstractInsnNode ofNumber = Instructions.pop(boxed(before).getSize());
                method.instructions.set(pop, ofNumber);
                method.instructions.remove(before);
                pops.set(pops.indexOf(pop), ofNumber);
                changed = true;
            }
        }
        return changed;
    }

    private static boolean isPush(AbstractInsnNode at, int size) {
        Object number = Instructions.pushed(at);
        if (number != null) {
            return size == (number instanceof Long ? 2 : 1);
        } else if (at instanceof VarInsnNode && at.getOpcode() <= ALOAD) {
            return size == (at.getOpcode() == LLOAD || at.getOpcode() == DLOAD ? 2 : 1);
        }
        return size == 1 && (at.getOpcode() == ACONST_NULL || at.getOpcode() == DUP);
    }

    /** Returns the type of the number that an instruction boxes, or null. */
    private static Type boxed(AbstractInsnNode at) {
        boolean boxes = at instanceof MethodInsnNode call && call.getOpcode() == INVOKESTATIC && call.name.equals("valueOf")
            && call.owner.startsWith("java/lang/") && call.desc.length() > 3 && call.desc.charAt(2) == ')' && call.desc.endsWith("L" + call.owner + ";");
        return boxes ? Type.getArgumentTypes(((MethodInsnNode) at).desc)[0] : null;
    }
}
