package jentry.compiler.unroll;

import org.objectweb.asm.Opcodes;
import org.objectweb.asm.tree.AbstractInsnNode;
import jentry.compiler.profile.Instructions;

/** Instructions whose only effect is to replace their operands by one value. */
final class Purity implements Opcodes {
    private static final int[] NOTHING = {};

    private Purity() { }

    /** Returns whether an instruction has no effect other than its value. ARRAYLENGTH is only pure if its array isn't null. */
    static boolean isPure(AbstractInsnNode at) {
        int opcode = at.getOpcode();
        if (opcode == LDC) {
            return Instructions.pushed(at) != null;
        }
        return opcode >= ACONST_NULL && opcode <= ALOAD && opcode != FLOAD && opcode != DLOAD || opcode >= IADD && opcode <= LMUL && isIntegral(opcode)
            || opcode == INEG || opcode == LNEG || opcode >= ISHL && opcode <= LXOR || opcode == I2L || opcode == L2I || opcode >= I2B && opcode <= I2S
            || opcode == LCMP || opcode == ARRAYLENGTH;
    }

    private static boolean isIntegral(int opcode) {
        return (opcode - IADD) % 4 < 2;
    }

    /** Returns the number of slots of the value that a pure instruction pushes. */
    static int size(AbstractInsnNode at) {
        int opcode = at.getOpcode();
        return switch (opcode) {
            case LCONST_0, LCONST_1, LLOAD, LADD, LSUB, LMUL, LNEG, LSHL, LSHR, LUSHR, LAND, LOR, LXOR, I2L -> 2;
            case LDC -> Instructions.pushed(at) instanceof Long ? 2 : 1;
            default -> 1;
        };
    }

    /** Returns the number of slots of each operand of a pure instruction, the top one first. */
    static int[] operands(int opcode) {
        if (opcode < IADD) {
            return NOTHING;
        }
        return switch (opcode) {
            case LADD, LSUB, LMUL, LAND, LOR, LXOR, LCMP -> new int[] {2, 2};
            case LSHL, LSHR, LUSHR -> new int[] {1, 2};
            case LNEG, L2I -> new int[] {2};
            case INEG, I2L, I2B, I2C, I2S, ARRAYLENGTH -> new int[] {1};
            default -> new int[] {1, 1};
        };
    }
}
