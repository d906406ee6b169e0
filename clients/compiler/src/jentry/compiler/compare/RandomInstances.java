package jentry.compiler.compare;

import java.lang.reflect.Array;
import java.lang.reflect.Constructor;
import java.lang.reflect.InvocationTargetException;
import java.util.Comparator;
import java.util.List;
import java.util.Random;

/** Makes objects by their constructors, with random values. */
final class RandomInstances {
    private static final int MOST_TRIES = 200;
    private static final int MOST_DEPTH = 4;

    private final Random random;

    RandomInstances(Random random) {
        this.random = random;
    }

    /** Returns a value of a type: a number, an enum's constant, or an object by a constructor that accepts what it is given. */
    Object next(Class<?> type) throws ReflectiveOperationException {
        return next(type, 0);
    }

    private Object next(Class<?> type, int depth) throws ReflectiveOperationException {
        if (type == boolean.class || type == Boolean.class) {
            return random.nextBoolean();
        } else if (type == long.class || type == Long.class || type == Number.class || type == Object.class) {
            return number();
        } else if (type == int.class || type == Integer.class) {
            return (int) number();
        } else if (type == short.class || type == byte.class || type == char.class) {
            return type == short.class ? (Object) (short) number() : type == byte.class ? (Object) (byte) number() : (Object) (char) number();
        } else if (type.isEnum()) {
            return type.getEnumConstants()[random.nextInt(type.getEnumConstants().length)];
        } else if (type.isArray()) {
            Object array = Array.newInstance(type.getComponentType(), random.nextInt(5));
            for (int i = 0; i < Array.getLength(array); i++) {
                Array.set(array, i, next(type.getComponentType(), depth + 1));
            }
            return array;
        }
        return made(type, depth);
    }

    private Object made(Class<?> type, int depth) throws ReflectiveOperationException {
        List<Constructor<?>> constructors = List.of(type.getDeclaredConstructors()).stream().sorted(Comparator.comparing(Constructor::getParameterCount))
            .toList();
        for (int tries = 0; tries < MOST_TRIES && depth < MOST_DEPTH && !constructors.isEmpty(); tries++) {
            Constructor<?> constructor = constructors.get(tries % constructors.size());
            constructor.setAccessible(true);
            Object[] values = new Object[constructor.getParameterCount()];
            for (int i = 0; i < values.length; i++) {
                values[i] = next(constructor.getParameterTypes()[i], depth + 1);
            }
            try {
                return constructor.newInstance(values);
            } catch (InvocationTargetException e) {
                // the constructor may refuse some values: try others
                continue;
            }
        }
        throw new InstantiationException("no random values make a " + type.getName());
    }

    private long number() {
        return switch (random.nextInt(6)) {
            case 0 -> random.nextInt(4);
            case 1 -> random.nextInt(100);
            case 2 -> random.nextInt(100_000);
            case 3 -> -random.nextInt(100);
            case 4 -> 1L << random.nextInt(64);
            default -> random.nextLong();
        };
    }
}
