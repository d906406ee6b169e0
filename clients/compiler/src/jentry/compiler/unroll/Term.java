package jentry.compiler.unroll;

import java.util.List;
import org.objectweb.asm.Opcodes;
import org.objectweb.asm.tree.analysis.Frame;
import org.objectweb.asm.tree.analysis.Value;

/**
 * A value within one pass of a loop, in terms of the locals at the head of the loop.
 *
 * @param size its number of slots
 * @param opcode ILOAD or LLOAD for a local at the head, LDC for a constant, NOP for a value that isn't followed, else the instruction that computes it
 * @param leaf the local, the Integer or Long, the name of a method (that of a box has its class and a dot in front), or what tells values apart that
 *     aren't followed; null for other values
 * @param operands the operands of a computed value
 */
record Term(int size, int opcode, Object leaf, List<Term> operands) implements Value, Opcodes {
    static Term local(int size, int local) {
        return new Term(size, size == 2 ? LLOAD : ILOAD, local, List.of());
    }

    static Term constant(Object number) {
        return new Term(number instanceof Long ? 2 : 1, LDC, number, List.of());
    }

    /** Returns a value that isn't followed; two of them are equal if their origins are. */
    static Term unknown(int size, Object origin) {
        return new Term(size, NOP, origin, List.of());
    }

    static Term unary(int size, int opcode, Term operand) {
        Object known = operand.isConstant() ? Arithmetic.unary(opcode, operand.leaf) : null;
        return known != null ? constant(known) : new Term(size, opcode, null, List.of(operand));
    }

    /** Returns an operation on two operands. A constant that is added or subtracted is the right operand of an addition. */
    static Term binary(int size, int opcode, Term left, Term right) {
        Object known = left.isConstant() && right.isConstant() ? Arithmetic.binary(opcode, left.leaf, right.leaf) : null;
        if (known != null) {
            return constant(known);
        } else if ((opcode == ISUB || opcode == LSUB) && right.isConstant()) {
            return binary(size, opcode - ISUB + IADD, left, constant(Arithmetic.unary(opcode == ISUB ? INEG : LNEG, right.leaf)));
        } else if ((opcode == IADD || opcode == LADD) && left.isConstant()) {
            return binary(size, opcode, right, left);
        } else if ((opcode == IADD || opcode == LADD) && right.isConstant() && left.opcode == opcode && left.operands.get(1).isConstant()) {
            return binary(size, opcode, left.operands.get(0), binary(size, opcode, left.operands.get(1), right));
        }
        return new Term(size, opcode, null, List.of(left, right));
    }

    @Override
    public int getSize() {
        return size;
    }

    boolean isConstant() {
        return opcode == LDC;
    }

    boolean isConstant(long number) {
        return isConstant() && number() == number;
    }

    long number() {
        return ((Number) leaf).longValue();
    }

    boolean isLocal() {
        return opcode == ILOAD || opcode == LLOAD;
    }

    /** Returns the local at the head that this is. */
    int local() {
        return (Integer) leaf;
    }

    /** Returns whether this is a constant, or a local that no path of a pass changes. */
    boolean isFixed(List<Frame<Term>> ends) {
        return isConstant() || isLocal() && ends.stream().map(it -> it.getLocal(local())).allMatch(it -> it.isLocal() && it.local() == local());
    }

    /** Returns whether this is one of two operations, that of int or that of long, which follows it by one. */
    boolean isOperation(int ofInt) {
        return opcode == ofInt || opcode == ofInt + 1;
    }

    Term left() {
        return operands.get(0);
    }

    Term right() {
        return operands.get(1);
    }

    /** Returns whether this is an operation of int or long on these operands. */
    boolean is(int ofInt, Term left, Term right) {
        return isOperation(ofInt) && left().equals(left) && right().equals(right);
    }

    /** Returns whether this is such an operation on these operands in either order. */
    boolean isEither(int ofInt, Term one, Term other) {
        return is(ofInt, one, other) || is(ofInt, other, one);
    }

    /** Returns the number that is added to another term, if that is what this is, or 0. */
    long addedTo(Term other) {
        return isOperation(IADD) && left().equals(other) && right().isConstant() ? right().number() : 0;
    }

    /** Returns whether this is a call of a method that the compiler has copied from the JDK's, on one operand. */
    boolean isCall(String name, Term operand) {
        return opcode == INVOKESTATIC && leaf instanceof String called && called.endsWith("_" + name) && operands.equals(List.of(operand));
    }

    /** Returns the number of bits of its type. */
    int bits() {
        return size * 32;
    }
}
