package jentry.compiler.unroll;

import static org.junit.jupiter.api.Assertions.assertTrue;

import java.util.Random;
import org.junit.jupiter.api.Test;
import org.objectweb.asm.Opcodes;

/** Tests that the computed range contains the result of an instruction for any operands within their ranges. */
class RangeArithmeticTest implements Opcodes {
    private static final int[] OF_INTS = {IADD, ISUB, IMUL, IDIV, IREM, ISHL, ISHR, IUSHR, IAND, IOR, IXOR};
    private static final int[] OF_LONGS = {LADD, LSUB, LMUL, LDIV, LREM, LSHL, LSHR, LUSHR, LAND, LOR, LXOR, LCMP};
    private static final int[] OF_AN_INT = {INEG, I2B, I2C, I2S, I2L};
    private static final int[] OF_A_LONG = {LNEG, L2I};
    private static final long[] EDGES = {0, 1, -1, 2, 7, 10, 4_095, Byte.MAX_VALUE, Byte.MIN_VALUE, Short.MIN_VALUE, Character.MAX_VALUE, Integer.MAX_VALUE,
        Integer.MIN_VALUE, Integer.MAX_VALUE + 1L, 1L << 40, Long.MAX_VALUE, Long.MIN_VALUE, Long.MAX_VALUE - 5, Long.MIN_VALUE + 5};

    private final Random random = new Random(5);

    private long number(boolean isLong) {
        long number = random.nextInt(3) == 0 ? random.nextLong() >> random.nextInt(64) : EDGES[random.nextInt(EDGES.length)] + random.nextInt(5) - 2;
        return isLong ? number : (int) number;
    }

    private AbstractValue value(boolean isLong) {
        long low = number(isLong);
        long most = isLong ? Long.MAX_VALUE : Integer.MAX_VALUE;
        long high = random.nextInt(3) == 0 ? low : low > most - 9 ? most : random.nextBoolean() ? low + random.nextInt(9) : Math.max(low, number(isLong));
        return AbstractValue.range(isLong ? 2 : 1, low, high);
    }

    private long among(AbstractValue value) {
        return switch (random.nextInt(3)) {
            case 0 -> value.low();
            case 1 -> value.high();
            default -> value.low() + Math.floorMod(random.nextLong(), Math.max(1, Math.min(20, value.high() - value.low() + 1)));
        };
    }

    private static Object boxed(AbstractValue value, long number) {
        return value.size() == 2 ? (Object) number : (Object) (int) number;
    }

    private static void assertHolds(AbstractValue limits, Object result, String what) {
        if (result != null) {
            long number = ((Number) result).longValue();
            assertTrue(limits.size() == (result instanceof Long ? 2 : 1) && limits.low() <= number && number <= limits.high(), () -> what + " = " + result
                + " isn't within " + limits);
        }
    }

    private void look(int opcode, AbstractValue left, AbstractValue right) {
        AbstractValue limits = RangeArithmetic.binary(opcode, left, right);
        for (int i = 0; i < 8; i++) {
            long a = among(left);
            long b = among(right);
            assertHolds(limits, Arithmetic.binary(opcode, boxed(left, a), boxed(right, b)), "opcode " + opcode + " of " + a + " and " + b);
        }
    }

    private void look(int opcode, AbstractValue value) {
        AbstractValue limits = RangeArithmetic.unary(opcode, value);
        for (int i = 0; i < 8; i++) {
            long a = among(value);
            assertHolds(limits, Arithmetic.unary(opcode, boxed(value, a)), "opcode " + opcode + " of " + a);
        }
    }

    @Test
    void ofTwoOperands() {
        for (int i = 0; i < 20_000; i++) {
            for (int opcode : OF_INTS) {
                look(opcode, value(false), value(false));
            }
            for (int opcode : OF_LONGS) {
                look(opcode, value(true), value(opcode != LSHL && opcode != LSHR && opcode != LUSHR));
            }
        }
    }

    @Test
    void ofOneOperand() {
        for (int i = 0; i < 20_000; i++) {
            for (int opcode : OF_AN_INT) {
                look(opcode, value(false));
            }
            for (int opcode : OF_A_LONG) {
                look(opcode, value(true));
            }
        }
    }
}
