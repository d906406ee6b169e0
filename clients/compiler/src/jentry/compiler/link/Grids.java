package jentry.compiler.link;

import java.lang.reflect.Array;
import java.util.IdentityHashMap;
import java.util.Map;
import org.objectweb.asm.Opcodes;
import org.objectweb.asm.Type;
import org.objectweb.asm.tree.AbstractInsnNode;
import org.objectweb.asm.tree.FieldInsnNode;
import org.objectweb.asm.tree.InsnList;
import org.objectweb.asm.tree.InsnNode;
import org.objectweb.asm.tree.IntInsnNode;
import org.objectweb.asm.tree.MethodInsnNode;
import org.objectweb.asm.tree.MethodNode;
import org.objectweb.asm.tree.MultiANewArrayInsnNode;
import org.objectweb.asm.tree.VarInsnNode;
import org.objectweb.asm.tree.analysis.BasicValue;
import org.objectweb.asm.tree.analysis.Frame;
import jentry.compiler.profile.Instructions;

/**
 * Writes arrays of arrays of numbers as one array: those of one length that a method makes, and constant ones.
 *
 * <p>In place of a row there is its number. The one array is a local of the method that makes it, or a constant.
 */
final class Grids implements Opcodes {
    private static final String LIBRARY = "jentry/compiler/library/GridMethods";
    private static final int MOST_ELEMENTS = 65_535;

    /**
     * An array of arrays.
     *
     * @param source the instruction that makes it, or the one array as a constant of the linked class
     * @param element the descriptor of an element
     */
    record Grid(Object source, int rows, int columns, String element) implements Known.Place {
        @Override
        public String type() {
            return null;
        }
    }

    /** A row of an array of arrays. */
    record Row(Grid grid) implements Known.Place {
        @Override
        public String type() {
            return null;
        }
    }

    /** The one array of a constant array of arrays; it is the same for the same field. */
    record Constant(String owner, String name, Object array) {
        @Override
        public boolean equals(Object other) {
            return other instanceof Constant it && owner.equals(it.owner) && name.equals(it.name);
        }

        @Override
        public int hashCode() {
            return owner.hashCode() * 31 + name.hashCode();
        }
    }

    private final Leaves leaves;
    private final MethodNode copy;
    private final Map<Object, Integer> locals = new IdentityHashMap<>();

    Grids(Leaves leaves, MethodNode copy) {
        this.leaves = leaves;
        this.copy = copy;
    }

    static boolean isOfArrays(String descriptor) {
        return descriptor.length() == 3 && descriptor.startsWith("[[") && "ZBSCIJ".indexOf(descriptor.charAt(2)) >= 0;
    }

    /** Returns what an instruction makes whose dimensions are known, or null. */
    static Known.Place made(MultiANewArrayInsnNode at, BasicValue rows, BasicValue columns) {
        boolean isKnown = Known.place(rows) instanceof Known.Fixed n && n.object() instanceof Integer && Known.place(columns) instanceof Known.Fixed m
            && m.object() instanceof Integer;
        if (!isKnown || !isOfArrays(at.desc) || at.dims != 2) {
            return null;
        }
        int height = (Integer) ((Known.Fixed) Known.place(rows)).object();
        int width = (Integer) ((Known.Fixed) Known.place(columns)).object();
        boolean fits = height > 0 && width > 0 && (long) height * width <= MOST_ELEMENTS;
        return fits ? new Grid(at, height, width, at.desc.substring(2)) : null;
    }

    /** Returns a constant array of arrays, or null if its rows aren't of one length. */
    static Known.Place constant(FieldInsnNode at, Object value) {
        int rows = value == null ? 0 : Array.getLength(value);
        int columns = rows == 0 || Array.get(value, 0) == null ? 0 : Array.getLength(Array.get(value, 0));
        if (columns == 0 || (long) rows * columns > MOST_ELEMENTS) {
            return null;
        }
        Object all = Array.newInstance(value.getClass().getComponentType().getComponentType(), rows * columns);
        for (int i = 0; i < rows; i++) {
            Object row = Array.get(value, i);
            if (row == null || Array.getLength(row) != columns) {
                return null;
            }
            System.arraycopy(row, 0, all, i * columns, columns);
        }
        return new Grid(new Constant(at.owner, at.name, all), rows, columns, at.desc.substring(2));
    }

    private static Known.Place place(Frame<BasicValue> frame, int below) {
        int size = frame.getStackSize();
        return below < size ? Known.place(frame.getStack(size - 1 - below)) : null;
    }

    /** Adds the code of an instruction that handles an array of arrays or a row. Returns whether it does. */
    boolean replace(AbstractInsnNode at, Frame<BasicValue> frame, Known.Place made, InsnList code) {
        int opcode = at.getOpcode();
        if (opcode == MULTIANEWARRAY && made instanceof Grid grid) {
            make(grid, code);
        } else if (opcode == AALOAD && place(frame, 1) instanceof Grid grid) {
            code.add(new InsnNode(SWAP));
            code.add(new InsnNode(POP));
            code.add(Instructions.push(grid.rows));
            call("row", "(II", ")I", grid, code);
        } else if (opcode == ARRAYLENGTH && place(frame, 0) instanceof Grid grid) {
            code.add(new InsnNode(POP));
            code.add(Instructions.push(grid.rows));
        } else if (opcode == ARRAYLENGTH && place(frame, 0) instanceof Row row) {
            code.add(new InsnNode(POP));
            code.add(Instructions.push(row.grid.columns));
        } else if (opcode >= IALOAD && opcode <= SALOAD && place(frame, 1) instanceof Row row) {
            code.add(Instructions.push(row.grid.columns));
            call("get", "(III", ")" + number(row.grid), row.grid, code);
        } else if (opcode >= IASTORE && opcode <= SASTORE && place(frame, 2) instanceof Row row && row.grid.source instanceof AbstractInsnNode) {
            narrow(row.grid, code);
            code.add(Instructions.push(row.grid.columns));
            call("set", "(II" + number(row.grid) + "I", ")V", row.grid, code);
        } else if (opcode == ASTORE && place(frame, 0) instanceof Row) {
            code.add(new VarInsnNode(ISTORE, ((VarInsnNode) at).var));
        } else if (opcode == ALOAD && Known.place(frame.getLocal(((VarInsnNode) at).var)) instanceof Row) {
            code.add(new VarInsnNode(ILOAD, ((VarInsnNode) at).var));
        } else {
            return false;
        }
        return true;
    }

    private static String number(Grid grid) {
        return grid.element.equals("J") ? "J" : "I";
    }

    private void make(Grid grid, InsnList code) {
        code.add(new InsnNode(POP2));
        code.add(Instructions.push(grid.rows * grid.columns));
        code.add(new IntInsnNode(NEWARRAY, grid.element.equals("J") ? T_LONG : T_INT));
        code.add(new VarInsnNode(ASTORE, locals.computeIfAbsent(grid.source, it -> copy.maxLocals++)));
        code.add(new InsnNode(ACONST_NULL));
    }

    private static void narrow(Grid grid, InsnList code) {
        switch (grid.element) {
            case "B" -> code.add(new InsnNode(I2B));
            case "S" -> code.add(new InsnNode(I2S));
            case "C" -> code.add(new InsnNode(I2C));
            default -> { }
        }
    }

    private void call(String name, String start, String end, Grid grid, InsnList code) {
        String type = "[" + number(grid);
        if (grid.source instanceof Constant constant) {
            String array = Type.getType(constant.array.getClass()).getDescriptor();
            code.add(leaves.read(leaves.constant(constant, constant.owner + "." + constant.name, array, constant.array)));
        } else {
            code.add(new VarInsnNode(ALOAD, locals.computeIfAbsent(grid.source, it -> copy.maxLocals++)));
        }
        code.add(new MethodInsnNode(INVOKESTATIC, LIBRARY, name, start + type + end, false));
    }
}
