package jentry.compiler.link;

import java.lang.invoke.SerializedLambda;
import java.lang.reflect.Field;
import java.lang.reflect.Method;
import java.util.List;
import java.util.Map;
import java.util.concurrent.ConcurrentHashMap;
import jentry.compiler.rewrite.Lambdas;

/** Reads the values that a processor object holds. */
public final class HeldValues {
    private static final String CAPTURED = Lambdas.CAPTURED;

    private static final ClassValue<Map<Capture.Step, Field>> FIELDS = new ClassValue<>() {
        @Override
        protected Map<Capture.Step, Field> computeValue(Class<?> type) {
            return new ConcurrentHashMap<>();
        }
    };

    private HeldValues() { }

    /**
     * Returns the value at the end of a path of fields, or null if an object on the path is null.
     *
     * @param processor the processor; what a lambda captures may stand for it, as an array
     */
    static Object at(Object processor, List<Capture.Step> path) {
        Object value = processor;
        for (Capture.Step step : path) {
            if (value == null) {
                return null;
            }
            value = read(value, step);
        }
        return value;
    }

    private static Object read(Object object, Capture.Step step) {
        if (object instanceof Object[] captured) {
            return captured[Integer.parseInt(step.name().substring(CAPTURED.length())) - 1];
        }
        return read(object.getClass(), object, step.owner(), step.name());
    }

    /** Returns the value of a field, by the internal name of the class that declares it. */
    static Object read(Class<?> start, Object object, String owner, String name) {
        try {
            return FIELDS.get(start).computeIfAbsent(new Capture.Step(owner, name), it -> field(start, it)).get(object);
        } catch (IllegalAccessException e) {
            throw new IllegalArgumentException(e);
        }
    }

    private static Field field(Class<?> start, Capture.Step step) {
        String declaring = step.owner().replace('/', '.');
        Class<?> type = start;
        while (!type.isHidden() && !type.getName().equals(declaring) && type.getSuperclass() != null) {
            type = type.getSuperclass();
        }
        try {
            Field field = type.getDeclaredField(step.name());
            field.setAccessible(true);
            return field;
        } catch (ReflectiveOperationException | RuntimeException e) {
            throw new IllegalArgumentException("the field " + step.name() + " of " + type.getName() + " can't be read: " + e.getMessage(), e);
        }
    }

    /** Returns the description that a serializable lambda has of itself, or null. */
    public static SerializedLambda describe(Object processor) {
        try {
            Method method = processor.getClass().getDeclaredMethod("writeReplace");
            method.setAccessible(true);
            return method.invoke(processor) instanceof SerializedLambda it ? it : null;
        } catch (ReflectiveOperationException | RuntimeException e) {
            return null;
        }
    }
}
