package jentry.compiler.link;

import java.time.LocalDate;
import java.util.List;
import java.util.stream.Collectors;

/**
 * A value that a processor object holds, itself or in an object that it holds.
 *
 * @param path the fields that lead to it, at least one
 * @param descriptor the type of the last field
 */
public record Capture(List<Step> path, String descriptor) {
    /**
     * A field.
     *
     * @param owner the internal name of the class that declares it
     * @param name its name
     */
    public record Step(String owner, String name) { }

    /** Returns the fields' names, joined by dots. */
    public String name() {
        return path.stream().map(Step::name).collect(Collectors.joining("."));
    }

    /** Returns the value that a processor holds. */
    public Object of(Object processor) {
        return HeldValues.at(processor, path);
    }

    /** Returns the value as an argument of an invocation: a Long, an Integer, a Boolean or null. */
    public Object argument(Object processor) {
        Object value = of(processor);
        boolean isOpen = descriptor.equals("Ljava/lang/Object;") || descriptor.equals("Ljava/lang/Number;");
        boolean isBoxed = isOpen || descriptor.equals("Ljava/lang/Boolean;");
        if (value == null || value instanceof Long || value instanceof Integer || isBoxed && value instanceof Boolean) {
            return value;
        } else if (isOpen) {
            throw new IllegalArgumentException("the processor's field " + name() + " holds a " + value.getClass().getName()
                + ", not a Long, an Integer, a Boolean or null");
        } else if (value instanceof Boolean it) {
            return it ? 1 : 0;
        } else if (value instanceof Character it) {
            return (int) it;
        } else if (value instanceof Enum<?> it) {
            return it.ordinal();
        }
        return value instanceof LocalDate it ? (Object) it.toEpochDay() : (Object) ((Number) value).intValue();
    }

    @Override
    public String toString() {
        return name() + " (" + org.objectweb.asm.Type.getType(descriptor).getClassName().replaceFirst("^java\\.lang\\.", "") + ")";
    }
}
