package jentry.compiler.unroll;

import java.util.ArrayList;
import java.util.List;
import org.objectweb.asm.Opcodes;
import org.objectweb.asm.tree.InsnList;
import org.objectweb.asm.tree.InsnNode;
import org.objectweb.asm.tree.MethodInsnNode;
import org.objectweb.asm.tree.VarInsnNode;
import org.objectweb.asm.tree.analysis.Frame;
import jentry.compiler.profile.Instructions;

/**
 * What one pass of a loop adds to a number, or subtracts from it.
 *
 * @param local the local of the number or of its box
 * @param number the number at the head of the loop
 * @param by what is added or subtracted
 * @param isAdded whether it is added
 * @param box the name of the method that boxes the number, with its class, or null
 */
record Step(int local, Term number, Term by, boolean isAdded, String box) implements Opcodes {
    /** Returns the steps of some locals, or null if one of them isn't such a step, or adds what another one changes. */
    static List<Step> of(Frame<Term> end, List<Integer> locals) {
        List<Step> steps = new ArrayList<>();
        for (int local : locals) {
            Step step = of(local, end.getLocal(local));
            if (step == null) {
                return null;
            }
            steps.add(step);
        }
        return steps.stream().allMatch(it -> isSame(it.by, steps)) ? steps : null;
    }

    private static Step of(int local, Term next) {
        boolean isBoxed = next.opcode() == INVOKESTATIC && next.leaf().toString().endsWith(".valueOf");
        Term sum = isBoxed ? next.left() : next;
        if (!sum.isOperation(IADD) && !sum.isOperation(ISUB)) {
            return null;
        }
        boolean isRight = sum.isOperation(IADD) && isOf(sum.right(), local, isBoxed);
        Term number = isRight ? sum.right() : sum.left();
        return isOf(number, local, isBoxed) ? new Step(local, number, isRight ? sum.left() : sum.right(), sum.isOperation(IADD), isBoxed ? next.leaf().toString() : null)
            : null;
    }

    private static boolean isOf(Term number, int local, boolean isBoxed) {
        Term read = isBoxed && number.opcode() == INVOKEVIRTUAL ? number.left() : number;
        return isBoxed == (number.opcode() == INVOKEVIRTUAL) && read.isLocal() && read.local() == local;
    }

    /** Returns whether a term is a number that no step changes, and that can be written again. */
    static boolean isSame(Term term, List<Step> steps) {
        if (term.isLocal()) {
            return steps.stream().noneMatch(it -> it.local == term.local());
        }
        boolean isKnown = term.isConstant() || term.opcode() == I2L || term.opcode() == INVOKEVIRTUAL;
        return isKnown && term.operands().stream().allMatch(it -> isSame(it, steps));
    }

    /** Returns by how much a pass moves the number down, or up, where that is one term; else null. */
    Term isTowards(boolean isDown) {
        if (isAdded != isDown) {
            return by;
        }
        Object negative = by.isConstant() && by.number() != Long.MIN_VALUE ? Arithmetic.unary(by.size() == 2 ? LNEG : INEG, by.leaf()) : null;
        return negative == null ? null : Term.constant(negative);
    }

    /** Adds the code that pushes a term for which {@link #isSame} holds, or the number of a step. */
    static void addTerm(Term term, InsnList code) {
        if (term.isConstant()) {
            code.add(Instructions.push(term.leaf()));
        } else if (term.isLocal()) {
            code.add(new VarInsnNode(term.opcode(), term.local()));
        } else if (term.opcode() == I2L) {
            addTerm(term.left(), code);
            code.add(new InsnNode(I2L));
        } else {
            String name = term.leaf().toString();
            String owner = name.substring(0, name.indexOf('.'));
            code.add(new VarInsnNode(ALOAD, term.left().local()));
            code.add(new MethodInsnNode(INVOKEVIRTUAL, owner, name.substring(owner.length() + 1), term.size() == 2 ? "()J" : "()I", false));
        }
    }

    /** Adds the code that makes all passes of this step, whose number, modulo 2^64, is in a local. */
    void addAll(int passes, InsnList code) {
        boolean isLong = number.size() == 2;
        addTerm(number, code);
        addTerm(by, code);
        code.add(new VarInsnNode(LLOAD, passes));
        if (!isLong) {
            code.add(new InsnNode(L2I));
        }
        code.add(new InsnNode(isLong ? LMUL : IMUL));
        int operation = isAdded ? IADD : ISUB;
        code.add(new InsnNode(isLong ? operation + 1 : operation));
        if (box != null) {
            String owner = box.substring(0, box.indexOf('.'));
            code.add(new MethodInsnNode(INVOKESTATIC, owner, "valueOf", (isLong ? "(J)L" : "(I)L") + owner + ";", false));
        }
        code.add(new VarInsnNode(box != null ? ASTORE : isLong ? LSTORE : ISTORE, local));
    }
}
