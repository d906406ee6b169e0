package jentry.compiler.link;

import java.util.Set;
import org.objectweb.asm.Type;
import jentry.compiler.ProgramClasses;

/**
 * The types that stand in the linked class for types that the server doesn't have: an enum becomes its ordinal, a date its epoch day, and a packed object
 * its fields, boxed.
 */
final class Representation {
    private static final Type BOX = Type.getObjectType("java/lang/Integer");
    private static final Type OBJECT = Type.getObjectType("java/lang/Object");
    private static final Set<String> ENUMS = Set.of("java/util/concurrent/TimeUnit", "java/time/DayOfWeek", "java/time/Month");
    private static final Type DATE = Type.getObjectType("java/lang/Long");
    private static final Set<String> DATES = Set.of("java/time/LocalDate", "java/time/chrono/ChronoLocalDate");
    private static final Set<String> VALUES = Set.of("java/time/Duration", "java/time/Period", "java/time/temporal/ChronoUnit", "java/time/ZoneOffset",
        "java/math/BigDecimal", "java/math/BigInteger", "java/time/LocalTime");

    private final Classes classes;
    private final PackedObjects packed;

    Representation(Classes classes, PackedObjects packed) {
        this.classes = classes;
        this.packed = packed;
    }

    /** Returns whether a type is an enum whose constants become their ordinals. */
    boolean isEnum(String name) {
        return ENUMS.contains(name) || classes.isEnum(name);
    }

    /** Returns whether objects of a class of Java can be computed at compile time. */
    static boolean isValue(String name) {
        return VALUES.contains(name) || ENUMS.contains(name) || DATES.contains(name);
    }

    /** Returns whether a value of a type is a number in the linked class. */
    boolean isNumber(Type type) {
        return type != null && type.getSort() == Type.OBJECT && (isEnum(type.getInternalName()) || isDate(type.getInternalName())
            || packed.isPacked(type));
    }

    static boolean isDate(String name) {
        return DATES.contains(name);
    }

    Type of(Type type) {
        if (type.getSort() == Type.ARRAY && type.getDimensions() == 1 && type.getElementType().getSort() == Type.OBJECT) {
            return isEnum(type.getElementType().getInternalName()) ? Type.getType("[I") : type;
        } else if (type.getSort() != Type.OBJECT) {
            return type;
        } else if (isEnum(type.getInternalName())) {
            return BOX;
        } else if (isDate(type.getInternalName())) {
            return DATE;
        } else if (packed.isPacked(type)) {
            return PackedObjects.BOX;
        }
        boolean isProgram = !ProgramClasses.isOfPlatform(type.getInternalName()) && classes.get(type.getInternalName()) != null;
        return isProgram || VALUES.contains(type.getInternalName()) ? OBJECT : type;
    }

    /** Returns the descriptor of a static method in place of a method. */
    String of(String descriptor, String receiver) {
        Type[] types = Type.getArgumentTypes(descriptor);
        int first = receiver == null ? 0 : 1;
        Type[] all = new Type[types.length + first];
        if (receiver != null) {
            all[0] = of(Type.getObjectType(receiver));
        }
        for (int i = 0; i < types.length; i++) {
            all[first + i] = of(types[i]);
        }
        return Type.getMethodDescriptor(of(Type.getReturnType(descriptor)), all);
    }
}
