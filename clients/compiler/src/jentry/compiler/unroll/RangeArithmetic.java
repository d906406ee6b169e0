package jentry.compiler.unroll;

import org.objectweb.asm.Opcodes;

/** Evaluates arithmetic instructions on ranges. If the result may overflow, it is unknown. */
final class RangeArithmetic implements Opcodes {
    private RangeArithmetic() { }

    /** Returns the result of an instruction with one operand. */
    static AbstractValue unary(int opcode, AbstractValue value) {
        return switch (opcode) {
            case INEG, LNEG -> times(value, -1);
            case I2B -> narrowed(value, Byte.MIN_VALUE, Byte.MAX_VALUE);
            case I2S -> narrowed(value, Short.MIN_VALUE, Short.MAX_VALUE);
            case I2C -> narrowed(value, Character.MIN_VALUE, Character.MAX_VALUE);
            case I2L -> AbstractValue.range(2, value.low(), value.high());
            case L2I -> value.low() >= Integer.MIN_VALUE && value.high() <= Integer.MAX_VALUE
                ? AbstractValue.range(1, value.low(), value.high()) : AbstractValue.unknown(1);
            default -> AbstractValue.unknown(1);
        };
    }

    private static AbstractValue narrowed(AbstractValue value, int low, int high) {
        return value.low() >= low && value.high() <= high ? value : AbstractValue.range(1, low, high);
    }

    /** Returns the result of an instruction with two operands. */
    static AbstractValue binary(int opcode, AbstractValue left, AbstractValue right) {
        int size = left.size();
        return switch (opcode) {
            case LCMP -> AbstractValue.range(1, left.low() > right.high() ? 1 : left.low() >= right.high() ? 0 : -1,
                left.high() < right.low() ? -1 : left.high() <= right.low() ? 0 : 1);
            case IAND, LAND -> masked(left, right);
            case IREM, LREM -> remainder(left, right);
            case IADD, LADD -> right.isNarrow() ? left.plus(right.low(), right.high()) : AbstractValue.unknown(size);
            case ISUB, LSUB -> right.isNarrow() ? left.plus(-right.high(), -right.low()) : AbstractValue.unknown(size);
            case IMUL, LMUL -> right.isConstant() ? times(left, right.low()) : left.isConstant() ? times(right, left.low()) : AbstractValue.unknown(size);
            case IDIV, LDIV -> quotient(left, right);
            case ISHL, LSHL, ISHR, LSHR, IUSHR, LUSHR -> right.isConstant() ? shifted(opcode, left, (int) right.low()) : AbstractValue.unknown(size);
            case LALOAD, LOR, LXOR -> AbstractValue.unknown(2);
            default -> AbstractValue.unknown(1);
        };
    }

    /** Returns the range of a bitwise and: with a non-negative mask it is from zero to the mask. */
    private static AbstractValue masked(AbstractValue left, AbstractValue right) {
        long most = Math.min(left.low() >= 0 ? left.high() : Long.MAX_VALUE, right.low() >= 0 ? right.high() : Long.MAX_VALUE);
        boolean isLimited = left.low() >= 0 || right.low() >= 0;
        return isLimited ? AbstractValue.range(left.size(), 0, most) : AbstractValue.unknown(left.size());
    }

    /** Returns the range of a remainder: it is closer to zero than the divisor, and has the sign of the dividend. */
    private static AbstractValue remainder(AbstractValue left, AbstractValue right) {
        if (!right.isConstant() || right.low() == 0 || right.low() == Long.MIN_VALUE) {
            return AbstractValue.unknown(left.size());
        }
        long most = Math.abs(right.low()) - 1;
        return AbstractValue.range(left.size(), left.low() >= 0 ? 0 : -most, left.high() <= 0 ? 0 : most);
    }

    /** Returns the range of a quotient by a known divisor, which is monotonic in the dividend. The lowest number divided by -1 is itself. */
    private static AbstractValue quotient(AbstractValue left, AbstractValue right) {
        if (!right.isConstant() || right.low() == 0 || right.low() == -1) {
            return AbstractValue.unknown(left.size());
        }
        long first = left.low() / right.low();
        long last = left.high() / right.low();
        return AbstractValue.range(left.size(), Math.min(first, last), Math.max(first, last));
    }

    /** Returns the range of a product with a nonzero factor, or an unknown value if one of the products may overflow. */
    private static AbstractValue times(AbstractValue value, long factor) {
        long first = value.low() * factor;
        long last = value.high() * factor;
        boolean isExact = Math.multiplyHigh(value.low(), factor) == first >> 63 && Math.multiplyHigh(value.high(), factor) == last >> 63;
        long least = Math.min(first, last);
        long greatest = Math.max(first, last);
        boolean fits = isExact && factor != 0 && (value.size() == 2 || least >= Integer.MIN_VALUE && greatest <= Integer.MAX_VALUE);
        return fits ? AbstractValue.range(value.size(), least, greatest) : AbstractValue.unknown(value.size());
    }

    private static AbstractValue shifted(int opcode, AbstractValue value, int distance) {
        int by = distance & (value.size() == 2 ? 63 : 31);
        if (opcode == ISHL || opcode == LSHL) {
            return by < 63 ? times(value, 1L << by) : AbstractValue.unknown(value.size());
        } else if (opcode == ISHR || opcode == LSHR || value.low() >= 0 || by == 0) {
            return AbstractValue.range(value.size(), value.low() >> by, value.high() >> by);
        }
        return AbstractValue.range(value.size(), 0, (value.size() == 2 ? -1L : 0xffffffffL) >>> by);
    }
}
