package jentry.compiler.rewrite;

import java.util.ArrayList;
import java.util.Collections;
import java.util.IdentityHashMap;
import java.util.LinkedHashMap;
import java.util.List;
import java.util.Map;
import java.util.Set;
import java.util.function.Predicate;
import org.objectweb.asm.Opcodes;
import org.objectweb.asm.Type;
import org.objectweb.asm.tree.AbstractInsnNode;
import org.objectweb.asm.tree.FieldInsnNode;
import org.objectweb.asm.tree.InvokeDynamicInsnNode;
import org.objectweb.asm.tree.LdcInsnNode;
import org.objectweb.asm.tree.MethodInsnNode;
import org.objectweb.asm.tree.TypeInsnNode;
import org.objectweb.asm.tree.analysis.Interpreter;
import jentry.compiler.profile.Instructions;
import jentry.compiler.profile.Throws;
import jentry.compiler.rewrite.TextValue.Kind;

/**
 * Follows the texts that exceptions get: constants, and what is joined of constants and other values. It notes which of the instructions that make them
 * have a value that is used in another way too.
 */
final class TextInterpreter extends Interpreter<TextValue> implements Opcodes {
    static final String BUILDER = "java/lang/StringBuilder";
    private static final String STRING = "java/lang/String";
    private static final String TO_STRING = "()Ljava/lang/String;";
    private static final Set<String> BOXES = Set.of("java/lang/Long", "java/lang/Integer", "java/lang/Boolean");
    private static final Set<String> PLAIN = Set.of("java/lang/Object", "java/lang/Number", "java/lang/Short", "java/lang/Byte", "java/lang/Character");
    private static final TextValue NOTHING = TextValue.other(0, null);

    /** An exception, and the text that its constructor gets. */
    record Made(TextValue exception, TextValue text) { }

    /** A write of an element of an array. */
    private record Write(AbstractInsnNode array, TextValue value) { }

    private final Predicate<String> isPlain;
    private final Map<AbstractInsnNode, Made> exceptions = new IdentityHashMap<>();
    private final Set<AbstractInsnNode> usedElsewhere = Collections.newSetFromMap(new IdentityHashMap<>());
    private final Map<AbstractInsnNode, AbstractInsnNode> constructors = new IdentityHashMap<>();
    private final Map<AbstractInsnNode, Write> writes = new LinkedHashMap<>();

    /** @param isPlain tells of a class of the program whether its objects, as texts, have no effect and don't throw */
    TextInterpreter(Predicate<String> isPlain) {
        super(ASM9);
        this.isPlain = isPlain;
    }

    /** Returns the constructor calls of exceptions that get a text. */
    Map<AbstractInsnNode, Made> exceptions() {
        return exceptions;
    }

    /** Returns the instructions whose value is used for something other than the text of an exception. */
    Set<AbstractInsnNode> usedElsewhere() {
        return usedElsewhere;
    }

    /** Returns the constructor call of a StringBuilder by the NEW that makes it. */
    AbstractInsnNode constructor(AbstractInsnNode made) {
        return constructors.get(made);
    }

    /** Returns the writes of the elements of an array, by the instruction that makes it. */
    List<AbstractInsnNode> writes(AbstractInsnNode array) {
        return writes.keySet().stream().filter(it -> writes.get(it).array == array).toList();
    }

    private void use(TextValue value) {
        usedElsewhere.addAll(value.makers());
    }

    @Override
    public TextValue newValue(Type type) {
        return type == Type.VOID_TYPE ? null : type == null ? TextValue.other(1, null) : TextValue.other(type.getSize(), type.getDescriptor());
    }

    @Override
    public TextValue newOperation(AbstractInsnNode at) {
        if (at instanceof LdcInsnNode it) {
            return it.cst instanceof String text ? TextValue.made(Kind.STRING, null, text, at)
                : TextValue.other(it.cst instanceof Long || it.cst instanceof Double ? 2 : 1, null);
        } else if (at.getOpcode() == NEW) {
            String type = ((TypeInsnNode) at).desc;
            return type.equals(BUILDER) ? TextValue.made(Kind.BUILDER, null, "", at) : TextValue.made(Kind.EXCEPTION, type, null, at);
        } else if (at instanceof FieldInsnNode field) {
            return newValue(Type.getType(field.desc));
        }
        boolean isWide = at.getOpcode() == LCONST_0 || at.getOpcode() == LCONST_1 || at.getOpcode() == DCONST_0 || at.getOpcode() == DCONST_1;
        return TextValue.other(isWide ? 2 : 1, null);
    }

    @Override
    public TextValue copyOperation(AbstractInsnNode at, TextValue value) {
        if (at.getOpcode() != DUP) {
            // what is kept in a local may be used again, and a builder changes then
            use(value);
        }
        return value;
    }

    @Override
    public TextValue unaryOperation(AbstractInsnNode at, TextValue value) {
        int opcode = at.getOpcode();
        if (opcode == ANEWARRAY && ((TypeInsnNode) at).desc.equals("java/lang/Object")) {
            return TextValue.made(Kind.ARRAY, null, null, at);
        } else if (opcode != ATHROW || !value.is(Kind.EXCEPTION)) {
            use(value);
        }
        return switch (opcode) {
            case CHECKCAST -> TextValue.other(1, Type.getObjectType(((TypeInsnNode) at).desc).getDescriptor());
            case GETFIELD -> newValue(Type.getType(((FieldInsnNode) at).desc));
            case LNEG, DNEG, I2L, I2D, F2L, F2D, L2D, D2L -> TextValue.other(2, null);
            default -> TextValue.other(1, null);
        };
    }

    @Override
    public TextValue binaryOperation(AbstractInsnNode at, TextValue left, TextValue right) {
        use(left);
        use(right);
        return switch (at.getOpcode()) {
            case LALOAD, DALOAD, LADD, DADD, LSUB, DSUB, LMUL, DMUL, LDIV, DDIV, LREM, DREM, LSHL, LSHR, LUSHR, LAND, LOR, LXOR -> TextValue.other(2, null);
            case AALOAD -> TextValue.other(1, left.type() != null && left.type().startsWith("[") ? left.type().substring(1) : null);
            default -> TextValue.other(1, null);
        };
    }

    @Override
    public TextValue ternaryOperation(AbstractInsnNode at, TextValue array, TextValue index, TextValue value) {
        if (at.getOpcode() == AASTORE && array.is(Kind.ARRAY) && array.makers().size() == 1) {
            writes.put(at, new Write(array.makers().iterator().next(), value));
        } else {
            use(array);
            use(value);
        }
        return null;
    }

    @Override
    public TextValue naryOperation(AbstractInsnNode at, List<? extends TextValue> operands) {
        TextValue text = at instanceof InvokeDynamicInsnNode it ? concatenated(it, operands) : at instanceof MethodInsnNode call ? called(call, operands) : null;
        if (text != null) {
            return text.size() == 0 ? null : text;
        }
        operands.forEach(this::use);
        boolean isOfEntry = at instanceof MethodInsnNode call && call.owner.startsWith("javax/cache/") && (call.name.equals("getKey") || call.name.equals("getValue"));
        if (isOfEntry) {
            return TextValue.other(1, "Ljava/lang/Long;");
        }
        return newValue(at instanceof MethodInsnNode call ? Type.getReturnType(call.desc)
            : at instanceof InvokeDynamicInsnNode it ? Type.getReturnType(it.desc) : Type.getObjectType("java/lang/Object"));
    }

    /** Returns whether a value can be made a text without an effect and without an exception. */
    private boolean isPlain(TextValue value, Type type) {
        if (type.getSort() < Type.ARRAY || !value.is(Kind.OTHER)) {
            return type.getSort() < Type.ARRAY || value.is(Kind.STRING);
        }
        String name = value.type() == null ? null : value.type().startsWith("L") ? Type.getType(value.type()).getInternalName() : value.type();
        return name != null && (BOXES.contains(name) || PLAIN.contains(name) || isPlain.test(name));
    }

    private static boolean isWhole(TextValue value) {
        return value.is(Kind.STRING) && value.isWhole();
    }

    /** Returns the text of what javac 9 or later joins by +. */
    private TextValue concatenated(InvokeDynamicInsnNode at, List<? extends TextValue> operands) {
        boolean isRecipe = at.bsm.getName().equals("makeConcatWithConstants");
        Type[] types = Type.getArgumentTypes(at.desc);
        if (!at.bsm.getOwner().equals("java/lang/invoke/StringConcatFactory")) {
            return null;
        }
        StringBuilder text = new StringBuilder();
        int operand = 0;
        int constant = 1;
        for (char c : (isRecipe ? (String) at.bsmArgs[0] : "\1".repeat(types.length)).toCharArray()) {
            if (c == 1) {
                if (!isPlain(operands.get(operand), types[operand])) {
                    return null;
                }
                text.append(operands.get(operand++).part());
            } else if (c == 2) {
                text.append(at.bsmArgs[constant++]);
            } else {
                text.append(c);
            }
        }
        return TextValue.joined(Kind.STRING, text.toString(), operands.stream().allMatch(TextInterpreter::isWhole), at, operands);
    }

    /** Returns the value of a call of which texts are made, NOTHING for one without a value, or null for another call. */
    private TextValue called(MethodInsnNode call, List<? extends TextValue> operands) {
        TextValue first = operands.isEmpty() ? NOTHING : operands.get(0);
        if (call.name.equals("<init>")) {
            return constructed(call, first, operands);
        } else if (first.is(Kind.BUILDER) && call.getOpcode() == INVOKEVIRTUAL && call.owner.equals(BUILDER)) {
            return built(call, first, operands);
        } else if (call.owner.equals(STRING) && (call.name.equals("format") || call.name.equals("formatted"))) {
            return formatted(call, operands);
        }
        return isNumberAsText(call, first) ? TextValue.joined(Kind.STRING, first.part(), isWhole(first), call, operands) : null;
    }

    private TextValue constructed(MethodInsnNode call, TextValue made, List<? extends TextValue> operands) {
        if (made.is(Kind.BUILDER) && call.desc.equals("()V") && made.makers().size() == 1) {
            constructors.put(made.makers().iterator().next(), call);
            return NOTHING;
        } else if (made.is(Kind.EXCEPTION) && call.desc.equals("()V")) {
            return NOTHING;
        } else if (made.is(Kind.EXCEPTION) && call.desc.equals(Throws.WITH_TEXT) && operands.get(1).is(Kind.STRING)) {
            exceptions.put(call, new Made(made, operands.get(1)));
            return NOTHING;
        }
        return null;
    }

    private TextValue built(MethodInsnNode call, TextValue builder, List<? extends TextValue> operands) {
        Type[] types = Type.getArgumentTypes(call.desc);
        if (call.name.equals("append") && types.length == 1 && builder.text() != null && isPlain(operands.get(1), types[0])) {
            return TextValue.joined(Kind.BUILDER, builder.text() + part(call, operands.get(1), types[0]), builder.isWhole() && isWhole(operands.get(1)), call, operands);
        }
        return call.name.equals("toString") ? TextValue.joined(Kind.STRING, builder.text(), builder.isWhole(), call, operands) : null;
    }

    /** Returns the constant parts of what is appended: a text's, or a character or number that is pushed right before. */
    private static String part(MethodInsnNode append, TextValue value, Type type) {
        if (!(Instructions.pushed(append.getPrevious()) instanceof Number number)) {
            return value.part();
        }
        return switch (type.getSort()) {
            case Type.CHAR -> String.valueOf((char) number.intValue());
            case Type.BOOLEAN -> String.valueOf(number.intValue() != 0);
            default -> number.toString();
        };
    }

    /** Returns whether a call makes a text of one number, or of an enum. */
    private boolean isNumberAsText(MethodInsnNode call, TextValue first) {
        Type[] types = Type.getArgumentTypes(call.desc);
        if (call.getOpcode() == INVOKEVIRTUAL) {
            return BOXES.contains(call.owner) && call.name.equals("toString") && call.desc.equals(TO_STRING) || isName(call);
        }
        boolean isOfOne = call.getOpcode() == INVOKESTATIC && types.length == 1 && call.desc.endsWith(")Ljava/lang/String;");
        return isOfOne && (BOXES.contains(call.owner) && types[0].getSort() < Type.ARRAY || call.owner.equals(STRING) && call.name.equals("valueOf")
            && isPlain(first, types[0]));
    }

    /** Returns whether a call asks for the name of an enum's constant. */
    private boolean isName(MethodInsnNode call) {
        return call.desc.equals(TO_STRING) && (call.name.equals("name") || call.name.equals("toString")) && isPlain.test(call.owner);
    }

    private TextValue formatted(MethodInsnNode call, List<? extends TextValue> operands) {
        boolean isKnown = operands.size() == 2 && isWhole(operands.get(0)) && operands.get(0).text() != null && operands.get(1).is(Kind.ARRAY)
            && operands.get(1).makers().size() == 1;
        if (!isKnown) {
            return null;
        }
        AbstractInsnNode array = operands.get(1).makers().iterator().next();
        List<TextValue> values = writes.values().stream().filter(it -> it.array == array).map(Write::value).toList();
        boolean isFilled = Integer.valueOf(values.size()).equals(Instructions.pushed(Instructions.previous(array)));
        boolean isPlain = values.stream().allMatch(it -> isPlain(it, Type.getObjectType("java/lang/Object")));
        String text = isFilled && isPlain ? Formats.constantParts(operands.get(0).text(), values) : null;
        List<TextValue> parts = new ArrayList<>(operands);
        parts.addAll(values);
        return text == null ? null : TextValue.joined(Kind.STRING, text, false, call, parts);
    }

    @Override
    public void returnOperation(AbstractInsnNode at, TextValue value, TextValue expected) {
        use(value);
    }

    @Override
    public TextValue merge(TextValue a, TextValue b) {
        return a.or(b);
    }
}
