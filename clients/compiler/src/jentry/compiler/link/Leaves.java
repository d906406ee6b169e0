package jentry.compiler.link;

import java.time.LocalDate;
import java.util.ArrayList;
import java.util.HashSet;
import java.util.LinkedHashMap;
import java.util.LinkedHashSet;
import java.util.List;
import java.util.Map;
import java.util.Set;
import org.objectweb.asm.Opcodes;
import org.objectweb.asm.tree.ClassNode;
import org.objectweb.asm.tree.FieldInsnNode;
import org.objectweb.asm.tree.FieldNode;

/**
 * The numbers and arrays that the linked class takes from outside. Each is a static field of it until it becomes an argument or a constant.
 */
final class Leaves implements Opcodes {
    private static final Set<String> NUMBERS = Set.of("Z", "B", "S", "C", "I", "J", "Ljava/lang/Long;", "Ljava/lang/Integer;", "Ljava/lang/Number;",
        "Ljava/lang/Object;", "Ljava/lang/Boolean;");
    private static final Set<String> ARRAYS = Set.of("[Z", "[B", "[S", "[C", "[I", "[J");

    private final ClassNode made;
    private final Holder holder;
    private final Map<Object, FieldNode> fields = new LinkedHashMap<>();
    private final Set<String> names = new HashSet<>();
    private final Map<String, Capture> hidden = new LinkedHashMap<>();
    private final Map<String, Object> constants = new LinkedHashMap<>();
    private final Set<Captures.Guard> guards = new LinkedHashSet<>();

    Leaves(ClassNode made, Holder holder) {
        this.made = made;
        this.holder = holder;
    }

    static boolean isLeaf(String descriptor) {
        return NUMBERS.contains(descriptor) || ARRAYS.contains(descriptor);
    }

    /**
     * Returns the field for a value that the processor holds, or null if it is known only when the processor is sent.
     *
     * @param type the descriptor of what stands for the value in the linked class
     */
    FieldNode held(List<Capture.Step> path, String descriptor, boolean isFinal, String type) {
        Capture capture = new Capture(path, descriptor);
        boolean isArray = descriptor.startsWith("[");
        if (holder.isConstant(isFinal) || isArray && holder.processor() != null) {
            Object value = capture.of(holder.processor());
            if (!holder.isOfEvery()) {
                guards.add(new Captures.Guard(capture, Captures.Guard.snapshot(value)));
            }
            Object number = isArray ? value : capture.argument(holder.processor());
            if (number instanceof Boolean) {
                throw new IllegalArgumentException("the processor's field " + capture.name() + " holds a Boolean, which can only be passed as an argument");
            }
            return constant(path, capture.name(), type, number);
        } else if (isArray) {
            return null;
        }
        FieldNode field = field(path, capture.name(), type);
        hidden.put(field.name, capture);
        return field;
    }

    /** Returns the field for a known value. */
    FieldNode constant(Object key, String name, String descriptor, Object value) {
        FieldNode field = field(key, name, descriptor);
        constants.put(field.name, Captures.Guard.snapshot(value instanceof Enum<?> it ? (Object) it.ordinal()
            : value instanceof LocalDate it ? (Object) it.toEpochDay() : value));
        return field;
    }

    private FieldNode field(Object key, String name, String descriptor) {
        return fields.computeIfAbsent(key, it -> {
            String unique = name.replaceAll("[./;\\[<>]", "\\$");
            while (!names.add(unique)) {
                unique += "_";
            }
            FieldNode field = new FieldNode(ACC_PRIVATE | ACC_STATIC | ACC_FINAL, unique, descriptor, null, null);
            made.fields.add(field);
            return field;
        });
    }

    /** Notes that the linked class is only for processors that hold an object of this class, or this value. */
    void guard(List<Capture.Step> path, Object expected) {
        if (!holder.isOfEvery() && !path.isEmpty()) {
            guards.add(new Captures.Guard(new Capture(path, "Ljava/lang/Object;"), expected));
        }
    }

    FieldInsnNode read(FieldNode field) {
        return new FieldInsnNode(GETSTATIC, made.name, field.name, field.desc);
    }

    /** Returns the values that become arguments, by the names of their fields. */
    Map<String, Capture> hidden() {
        return hidden;
    }

    /** Returns the values of the other fields. */
    Map<String, Object> constants() {
        return constants;
    }

    List<Captures.Guard> guards() {
        return new ArrayList<>(guards);
    }
}
