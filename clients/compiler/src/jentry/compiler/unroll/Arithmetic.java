package jentry.compiler.unroll;

import org.objectweb.asm.Opcodes;

/** Evaluates arithmetic instructions on constants (JVMS 6.5). An Integer is an int, a Long a long. */
public final class Arithmetic implements Opcodes {
    private Arithmetic() { }

    /** Evaluates an instruction with one operand. Returns null for other instructions. */
    public static Object unary(int opcode, Object operand) {
        if (operand instanceof Integer n) {
            return switch (opcode) {
                case INEG -> -n;
                case I2L -> (long) n;
                case I2B -> (int) (byte) (int) n;
                case I2C -> (int) (char) (int) n;
                case I2S -> (int) (short) (int) n;
                default -> null;
            };
        } else if (operand instanceof Long n) {
            return switch (opcode) {
                case LNEG -> -n;
                case L2I -> (int) (long) n;
                default -> null;
            };
        }
        return null;
    }

    /** Evaluates an instruction with two operands. Returns null for other instructions and for those that throw. */
    public static Object binary(int opcode, Object left, Object right) {
        if (left instanceof Integer a && right instanceof Integer b) {
            return ofInts(opcode, a, b);
        } else if (left instanceof Long a && right instanceof Long b) {
            return ofLongs(opcode, a, b);
        } else if (left instanceof Long a && right instanceof Integer b) {
            return switch (opcode) {
                case LSHL -> a << b;
                case LSHR -> a >> b;
                case LUSHR -> a >>> b;
                default -> null;
            };
        }
        return null;
    }

    private static Object ofInts(int opcode, int a, int b) {
        return switch (opcode) {
            case IADD -> a + b;
            case ISUB -> a - b;
            case IMUL -> a * b;
            case IDIV -> b == 0 ? null : (Object) (a / b);
            case IREM -> b == 0 ? null : (Object) (a % b);
            case ISHL -> a << b;
            case ISHR -> a >> b;
            case IUSHR -> a >>> b;
            case IAND -> a & b;
            case IOR -> a | b;
            case IXOR -> a ^ b;
            default -> null;
        };
    }

    private static Object ofLongs(int opcode, long a, long b) {
        return switch (opcode) {
            case LADD -> a + b;
            case LSUB -> a - b;
            case LMUL -> a * b;
            case LDIV -> b == 0 ? null : (Object) (a / b);
            case LREM -> b == 0 ? null : (Object) (a % b);
            case LAND -> a & b;
            case LOR -> a | b;
            case LXOR -> a ^ b;
            case LCMP -> Long.compare(a, b);
            default -> null;
        };
    }

    /** Evaluates a comparison of an int with zero or of two ints. The comparison is 0 to 5 for ==, !=, <, >=, > and <=. */
    public static boolean holds(int comparison, int a, int b) {
        return switch (comparison) {
            case 0 -> a == b;
            case 1 -> a != b;
            case 2 -> a < b;
            case 3 -> a >= b;
            case 4 -> a > b;
            default -> a <= b;
        };
    }
}
