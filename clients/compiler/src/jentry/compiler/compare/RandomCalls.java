package jentry.compiler.compare;

import java.util.ArrayList;
import java.util.LinkedHashSet;
import java.util.List;
import java.util.Random;
import java.util.Set;
import org.objectweb.asm.ClassReader;
import org.objectweb.asm.tree.AbstractInsnNode;
import org.objectweb.asm.tree.ClassNode;
import org.objectweb.asm.tree.MethodNode;
import jentry.compiler.profile.Instructions;

/**
 * Generates random invocations: small numbers, range limits, the constants in a class's code and their neighbours, and arbitrary numbers.
 *
 * <p>Three of four calls have at least the arguments that the code reads, of the kinds that it casts them to; the others have any.
 */
public final class RandomCalls {
    private static final long[] BOUNDARIES = {0, 1, -1, 2, 7, 8, 63, 64, 127, 128, 255, 256, Short.MAX_VALUE, Integer.MAX_VALUE, Integer.MIN_VALUE,
        Integer.MAX_VALUE + 1L, Integer.MIN_VALUE - 1L, Long.MAX_VALUE, Long.MIN_VALUE, Long.MAX_VALUE - 1, Long.MIN_VALUE + 1};

    private final Random random;
    private final long[] named;
    private final ArgumentKinds kinds;

    /**
     * Creates a generator from the constants and the casts in a class file and a random seed.
     *
     * @param source the class name, and for a lambda also `#` and the name and descriptor of its body
     */
    public RandomCalls(byte[] classFile, String source, long seed) {
        random = new Random(seed);
        ClassNode node = new ClassNode();
        new ClassReader(classFile).accept(node, ClassReader.SKIP_DEBUG | ClassReader.SKIP_FRAMES);
        Set<Long> numbers = new LinkedHashSet<>(List.of(0L));
        for (MethodNode method : node.methods) {
            for (AbstractInsnNode at : method.instructions) {
                if (Instructions.pushed(at) instanceof Number number) {
                    numbers.addAll(List.of(number.longValue() - 1, number.longValue(), number.longValue() + 1));
                }
            }
        }
        named = numbers.stream().mapToLong(it -> it).toArray();
        kinds = new ArgumentKinds(node, source);
    }

    /** Returns the next call. */
    public Call next() {
        boolean isAsCast = random.nextInt(4) > 0;
        int least = isAsCast ? kinds.count() : 0;
        int count = isAsCast && least > 0 && random.nextBoolean() ? least : least + random.nextInt(ArgumentKinds.MOST_ARGUMENTS + 1 - least);
        List<Object> arguments = new ArrayList<>();
        for (int i = 0; i < count; i++) {
            arguments.add(isAsCast ? argument(kinds.of(i)) : argument());
        }
        Long value = random.nextInt(8) == 0 ? null : (Long) number();
        return new Call(number(), value, arguments.toArray());
    }

    private Object argument(Set<ArgumentKinds.Kind> wanted) {
        if (wanted.isEmpty() || random.nextInt(64) == 0) {
            return argument();
        }
        return switch (List.copyOf(wanted).get(random.nextInt(wanted.size()))) {
            case LONG -> (Object) number();
            case INTEGER -> (Object) (int) number();
            case BOOLEAN -> (Object) random.nextBoolean();
        };
    }

    private Object argument() {
        return switch (random.nextInt(24)) {
            case 0 -> null;
            case 1, 2 -> (Object) (int) number();
            case 3 -> (Object) random.nextBoolean();
            default -> (Object) number();
        };
    }

    private long number() {
        return switch (random.nextInt(8)) {
            case 0 -> random.nextInt(20);
            case 1 -> random.nextInt(100_000);
            case 2 -> -random.nextInt(1000);
            case 3 -> 1L << random.nextInt(64);
            case 4 -> random.nextInt();
            case 5 -> BOUNDARIES[random.nextInt(BOUNDARIES.length)];
            case 6 -> named[random.nextInt(named.length)];
            default -> random.nextLong();
        };
    }
}
