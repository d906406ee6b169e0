package jentry.compiler;

import static org.junit.jupiter.api.Assertions.assertEquals;
import static org.junit.jupiter.api.Assertions.assertTrue;

import java.lang.reflect.InvocationTargetException;
import java.lang.reflect.Method;
import java.lang.reflect.Modifier;
import java.time.DateTimeException;
import java.time.DayOfWeek;
import java.time.LocalDate;
import java.time.Month;
import java.time.chrono.ChronoLocalDate;
import java.util.ArrayList;
import java.util.Arrays;
import java.util.List;
import java.util.Random;
import java.util.concurrent.TimeUnit;
import jentry.compiler.library.DayOfWeekMethods;
import jentry.compiler.library.LocalDateMethods;
import jentry.compiler.library.MonthMethods;
import jentry.compiler.library.TimeUnitMethods;
import org.junit.jupiter.params.ParameterizedTest;
import org.junit.jupiter.params.provider.MethodSource;

/** Compares each method of the library of units and dates with Java's own, on random values. */
class TimeLibraryTest {
    private static final int CALLS = 100_000;
    private static final int LEAST_RETURNED = 10_000;

    private final Random random = new Random(3);

    static List<Method> methods() {
        List<Method> all = new ArrayList<>();
        for (Class<?> library : List.of(TimeUnitMethods.class, LocalDateMethods.class, DayOfWeekMethods.class, MonthMethods.class)) {
            Arrays.stream(library.getDeclaredMethods()).filter(it -> Modifier.isPublic(it.getModifiers())).forEach(all::add);
        }
        assertTrue(all.size() >= 44, all.toString());
        return all;
    }

    private static Class<?> ofJava(Class<?> library) {
        return library == TimeUnitMethods.class ? TimeUnit.class : library == LocalDateMethods.class ? LocalDate.class
            : library == DayOfWeekMethods.class ? DayOfWeek.class : Month.class;
    }

    /** Returns Java's method of this name whose parameters are those of a method of the library, behind the receiver if it has one. */
    private static Method ofJava(Method mine) {
        for (Method method : ofJava(mine.getDeclaringClass()).getMethods()) {
            int receivers = Modifier.isStatic(method.getModifiers()) ? 0 : 1;
            Class<?>[] types = method.getParameterTypes();
            boolean fits = method.getName().equals(mine.getName()) && !method.isBridge() && types.length + receivers == mine.getParameterCount();
            for (int i = 0; fits && i < types.length; i++) {
                Class<?> type = mine.getParameterTypes()[i + receivers];
                fits = types[i].isPrimitive() ? types[i] == type : types[i] == ChronoLocalDate.class ? type == Long.class : type == Integer.class;
            }
            if (fits) {
                return method;
            }
        }
        throw new AssertionError("Java has no " + mine);
    }

    private long number() {
        return switch (random.nextInt(16)) {
            case 0 -> random.nextBoolean() ? Long.MAX_VALUE - random.nextInt(3) : Long.MIN_VALUE + random.nextInt(3);
            case 1 -> random.nextLong() >> random.nextInt(64);
            case 2 -> random.nextInt();
            case 3, 4, 5 -> random.nextInt(40) - 4;
            case 6, 7, 8 -> random.nextInt(4_000) - 1_000;
            default -> random.nextInt(28) + 1;
        };
    }

    private LocalDate date() {
        return switch (random.nextInt(4)) {
            case 0 -> LocalDate.MIN.plusDays(random.nextInt(1_000));
            case 1 -> LocalDate.MAX.minusDays(random.nextInt(1_000));
            case 2 -> LocalDate.of(random.nextInt(5_000) - 1_000, 1 + random.nextInt(12), 1).minusDays(random.nextInt(3));
            default -> LocalDate.ofEpochDay(random.nextInt(2_000_000) - 1_000_000);
        };
    }

    private Object value(Class<?> type) {
        if (type == int.class) {
            return random.nextInt(6) == 0 ? (int) number() : 1 + random.nextInt(12);
        } else if (type == long.class) {
            return number();
        } else if (type.isEnum()) {
            return type.getEnumConstants()[random.nextInt(type.getEnumConstants().length)];
        }
        return date();
    }

    private static Object mine(Object value) {
        return value instanceof Enum<?> it ? (Object) it.ordinal() : value instanceof LocalDate it ? (Object) it.toEpochDay() : value;
    }

    private static Object run(Method method, Object receiver, Object... values) throws IllegalAccessException {
        try {
            return mine(method.invoke(receiver, values));
        } catch (InvocationTargetException e) {
            boolean isOfArithmetic = e.getCause() instanceof ArithmeticException || e.getCause() instanceof DateTimeException;
            return isOfArithmetic ? "throws" : e.getCause().toString();
        }
    }

    @ParameterizedTest
    @MethodSource("methods")
    void doesWhatJavaDoes(Method mine) throws Exception {
        Method java = ofJava(mine);
        boolean isStatic = Modifier.isStatic(java.getModifiers());
        int returned = 0;
        for (int i = 0; i < CALLS; i++) {
            Object receiver = isStatic ? null : value(java.getDeclaringClass());
            Object[] values = Arrays.stream(java.getParameterTypes()).map(this::value).toArray();
            List<Object> all = new ArrayList<>();
            if (!isStatic) {
                all.add(mine(receiver));
            }
            Arrays.stream(values).forEach(it -> all.add(mine(it)));
            Object expected = run(java, receiver, values);
            assertEquals(expected, run(mine, null, all.toArray()), () -> mine.getName() + " of " + receiver + " " + Arrays.toString(values));
            returned += "throws".equals(expected) ? 0 : 1;
        }
        assertTrue(returned >= LEAST_RETURNED, returned + " returned");
    }
}
