package jentry.compiler.link;

import java.util.HashMap;
import java.util.Map;
import org.objectweb.asm.Opcodes;
import org.objectweb.asm.Type;
import org.objectweb.asm.tree.AbstractInsnNode;
import org.objectweb.asm.tree.ClassNode;
import org.objectweb.asm.tree.FieldInsnNode;
import org.objectweb.asm.tree.FrameNode;
import org.objectweb.asm.tree.IincInsnNode;
import org.objectweb.asm.tree.InsnList;
import org.objectweb.asm.tree.InsnNode;
import org.objectweb.asm.tree.InvokeDynamicInsnNode;
import org.objectweb.asm.tree.LabelNode;
import org.objectweb.asm.tree.LdcInsnNode;
import org.objectweb.asm.tree.MethodInsnNode;
import org.objectweb.asm.tree.MethodNode;
import org.objectweb.asm.tree.VarInsnNode;
import org.objectweb.asm.tree.analysis.Analyzer;
import org.objectweb.asm.tree.analysis.AnalyzerException;
import org.objectweb.asm.tree.analysis.Frame;
import org.objectweb.asm.tree.analysis.SourceInterpreter;
import org.objectweb.asm.tree.analysis.SourceValue;
import jentry.compiler.profile.Instructions;

/** The constructor of a packed object as a static method: its fields are locals, of which it makes a number in the end. */
final class PackedConstructor implements Opcodes {
    private final ClassNode owner;
    private final MethodNode constructor;
    private final Map<String, PackedObjects.Place> layout;
    private final Map<String, Integer> locals = new HashMap<>();
    private final MethodNode made;
    private Frame<SourceValue>[] frames;

    PackedConstructor(ClassNode owner, MethodNode constructor, Map<String, PackedObjects.Place> layout) {
        this.owner = owner;
        this.constructor = constructor;
        this.layout = layout;
        String descriptor = constructor.desc.substring(0, constructor.desc.length() - 1) + PackedObjects.BOX.getDescriptor();
        made = new MethodNode(ASM9, ACC_STATIC, "made", descriptor, null, null);
        int local = constructor.maxLocals;
        for (Map.Entry<String, PackedObjects.Place> it : layout.entrySet()) {
            locals.put(it.getKey(), local);
            local += it.getValue().type().getSize();
        }
        made.maxLocals = local;
        made.maxStack = constructor.maxStack + 5;
    }

    /** Returns the method, or null if the constructor uses the object in another way than to set and read its fields. */
    MethodNode written() {
        try {
            frames = new Analyzer<>(new SourceInterpreter()).analyze(owner.name, constructor);
        } catch (AnalyzerException e) {
            return null;
        }
        layout.forEach((name, place) -> {
            made.instructions.add(new InsnNode(place.type().getSort() == Type.LONG ? LCONST_0 : ICONST_0));
            made.instructions.add(new VarInsnNode(place.type().getOpcode(ISTORE), locals.get(name)));
        });
        Map<LabelNode, LabelNode> labels = new HashMap<>();
        for (AbstractInsnNode at : constructor.instructions) {
            if (at instanceof LabelNode label) {
                labels.put(label, new LabelNode());
            }
        }
        for (AbstractInsnNode at : constructor.instructions) {
            if (!(at instanceof FrameNode) && !add(at, labels)) {
                return null;
            }
        }
        return constructor.tryCatchBlocks.isEmpty() ? made : null;
    }

    private boolean isThis(Frame<SourceValue> frame, int below) {
        SourceValue value = frame.getStack(frame.getStackSize() - 1 - below);
        return value.insns.stream().anyMatch(it -> it.getOpcode() == ALOAD && ((VarInsnNode) it).var == 0);
    }

    /** Adds what replaces an instruction. Returns false if there is nothing. */
    private boolean add(AbstractInsnNode at, Map<LabelNode, LabelNode> labels) {
        InsnList code = made.instructions;
        Frame<SourceValue> frame = frames[constructor.instructions.indexOf(at)];
        if (at.getOpcode() < 0 || frame == null) {
            code.add(at.clone(labels));
        } else if (at instanceof VarInsnNode it && it.var == 0) {
            code.add(new InsnNode(ACONST_NULL));
            return it.getOpcode() == ALOAD;
        } else if (at instanceof MethodInsnNode call && call.name.equals("<init>") && isThis(frame, Type.getArgumentTypes(call.desc).length)) {
            code.add(new InsnNode(POP));
            return call.owner.equals(owner.superName) && call.desc.equals("()V");
        } else if (at.getOpcode() == PUTFIELD) {
            FieldInsnNode field = (FieldInsnNode) at;
            code.add(new VarInsnNode(Type.getType(field.desc).getOpcode(ISTORE), locals.get(field.name)));
            code.add(new InsnNode(POP));
            return isThis(frame, 1) && !isThis(frame, 0);
        } else if (at.getOpcode() == GETFIELD && isThis(frame, 0)) {
            code.add(new InsnNode(POP));
            code.add(new VarInsnNode(Type.getType(((FieldInsnNode) at).desc).getOpcode(ILOAD), locals.get(((FieldInsnNode) at).name)));
        } else if (at.getOpcode() == RETURN) {
            addNumber(code);
        } else {
            return addOther(at, frame, labels);
        }
        return true;
    }

    private boolean addOther(AbstractInsnNode at, Frame<SourceValue> frame, Map<LabelNode, LabelNode> labels) {
        AbstractInsnNode copy = at.clone(labels);
        if (copy instanceof VarInsnNode it) {
            it.var--;
        } else if (copy instanceof IincInsnNode it) {
            it.var--;
        }
        made.instructions.add(copy);
        for (int below = 0; below < Math.min(takes(at), frame.getStackSize()); below++) {
            if (isThis(frame, below)) {
                return false;
            }
        }
        return true;
    }

    /** Returns how many operands an instruction may take, of those that could take the object. */
    private static int takes(AbstractInsnNode at) {
        if (at instanceof MethodInsnNode call) {
            return Type.getArgumentTypes(call.desc).length + (at.getOpcode() == INVOKESTATIC ? 0 : 1);
        } else if (at instanceof InvokeDynamicInsnNode it) {
            return Type.getArgumentTypes(it.desc).length;
        }
        return switch (at.getOpcode()) {
            case DUP, ASTORE, GETFIELD, CHECKCAST, INSTANCEOF, IFNULL, IFNONNULL, PUTSTATIC, MONITORENTER, ATHROW -> 1;
            case IF_ACMPEQ, IF_ACMPNE, SWAP -> 2;
            case AASTORE, DUP_X1, DUP_X2, DUP2, DUP2_X1, DUP2_X2 -> 4;
            default -> 0;
        };
    }

    private void addNumber(InsnList code) {
        boolean isFirst = true;
        for (Map.Entry<String, PackedObjects.Place> it : layout.entrySet()) {
            PackedObjects.Place place = it.getValue();
            code.add(new VarInsnNode(place.type().getOpcode(ILOAD), locals.get(it.getKey())));
            if (place.type().getSort() != Type.LONG) {
                code.add(new InsnNode(I2L));
            }
            if (place.shift() + place.width() < 64) {
                code.add(new LdcInsnNode((1L << place.width()) - 1));
                code.add(new InsnNode(LAND));
            }
            if (place.shift() > 0) {
                code.add(Instructions.push(place.shift()));
                code.add(new InsnNode(LSHL));
            }
            if (!isFirst) {
                code.add(new InsnNode(LOR));
            }
            isFirst = false;
        }
        code.add(new MethodInsnNode(INVOKESTATIC, "java/lang/Long", "valueOf", "(J)Ljava/lang/Long;", false));
        code.add(new InsnNode(ARETURN));
    }
}
