package jentry.jcache.impl;

import java.io.ByteArrayInputStream;
import java.io.DataInputStream;
import java.io.IOException;
import java.util.ArrayList;
import java.util.Arrays;
import java.util.List;

/**
 * Finds the places in the source that a refusal may refer to, from its number and detail: the methods and lines of each
 * instruction with the given opcode (17), of each backward branch (20) and of each instruction at the given offset
 * (22), and each method with an exception table (15). It only improves messages: it checks nothing, and returns an
 * empty list for a malformed file.
 */
public final class Places {
    private static final int MOST = 8;
    private static final int EXCEPTION_TABLE = Refusal.EXCEPTION_TABLE.number();
    private static final int OUTSIDE_PROFILE = Refusal.OUTSIDE_PROFILE.number();
    private static final int BACKWARD_BRANCH = Refusal.BACKWARD_BRANCH.number();
    private static final int TYPE_MISMATCH = Refusal.TYPE_MISMATCH.number();
    private static final int TABLESWITCH = 170, LOOKUPSWITCH = 171, WIDE = 196, GOTO_W = 200, IINC = 132;

    // Instruction lengths by opcode. Those of the two switches and of wide depend on their operands.
    private static final int[] LENGTHS = new int[256];

    static {
        Arrays.fill(LENGTHS, 1);
        int[][] ranges = {{16, 16, 2}, {17, 17, 3}, {18, 18, 2}, {19, 20, 3}, {21, 25, 2}, {54, 58, 2}, {132, 132, 3},
            {153, 168, 3}, {169, 169, 2}, {178, 184, 3}, {185, 186, 5}, {187, 187, 3}, {188, 188, 2}, {189, 189, 3},
            {192, 193, 3}, {197, 197, 4}, {198, 199, 3}, {200, 201, 5}};
        for (int[] range : ranges) {
            Arrays.fill(LENGTHS, range[0], range[1] + 1, range[2]);
        }
    }

    private final ConstantPool pool;
    private final DataInputStream in;
    private final List<String> places = new ArrayList<>();
    private final int number;
    private final int detail;

    private Places(byte[] file, int number, int detail) {
        pool = new ConstantPool(file);
        in = new DataInputStream(new ByteArrayInputStream(file));
        this.number = number;
        this.detail = detail;
    }

    /** Returns the places of a refusal in a class file. */
    public static List<String> of(byte[] file, int number, int detail) {
        boolean isLocated = number == EXCEPTION_TABLE || number == OUTSIDE_PROFILE || number == BACKWARD_BRANCH
            || number == TYPE_MISMATCH;
        if (!isLocated) {
            return List.of();
        }
        Places places = new Places(file, number, detail);
        try {
            places.read();
        } catch (IOException | RuntimeException e) {
            return List.of();
        }
        return places.places;
    }

    private void read() throws IOException {
        in.skipBytes(pool.end());
        in.skipBytes(6);
        in.skipBytes(2 * in.readUnsignedShort());
        for (int fields = in.readUnsignedShort(); fields > 0; fields--) {
            in.skipBytes(6);
            readAttributes(null);
        }
        for (int methods = in.readUnsignedShort(); methods > 0; methods--) {
            in.skipBytes(2);
            String name = pool.utf8(in.readUnsignedShort());
            in.skipBytes(2);
            readAttributes(name);
        }
    }

    private void readAttributes(String method) throws IOException {
        for (int count = in.readUnsignedShort(); count > 0; count--) {
            String name = pool.utf8(in.readUnsignedShort());
            byte[] body = in.readNBytes(in.readInt());
            if (method != null && name.equals("Code")) {
                readCode(method, new DataInputStream(new ByteArrayInputStream(body)));
            }
        }
    }

    private void readCode(String method, DataInputStream body) throws IOException {
        body.skipBytes(4);
        byte[] code = body.readNBytes(body.readInt());
        int caught = body.readUnsignedShort();
        body.skipBytes(8 * caught);
        int[] lines = linesOf(body, code.length);
        if (number == EXCEPTION_TABLE && caught > 0) {
            places.add(method);
        }
        int line = 0;
        for (int at = 0; at < code.length; at += length(code, at)) {
            line = lines[at] == 0 ? line : lines[at];
            if (isMeant(code, at)) {
                add(method + (line == 0 ? " at " + at : " line " + line));
            }
        }
    }

    private int[] linesOf(DataInputStream attributes, int length) throws IOException {
        int[] lines = new int[length + 1];
        for (int count = attributes.readUnsignedShort(); count > 0; count--) {
            String name = pool.utf8(attributes.readUnsignedShort());
            byte[] text = attributes.readNBytes(attributes.readInt());
            if (name.equals("LineNumberTable")) {
                DataInputStream table = new DataInputStream(new ByteArrayInputStream(text));
                for (int n = table.readUnsignedShort(); n > 0; n--) {
                    int at = table.readUnsignedShort();
                    lines[at] = table.readUnsignedShort();
                }
            }
        }
        return lines;
    }

    private boolean isMeant(byte[] code, int at) {
        int opcode = code[at] & 0xFF;
        return number == OUTSIDE_PROFILE && opcode == detail
            || number == TYPE_MISMATCH && at == detail
            || number == BACKWARD_BRANCH && isBranch(opcode) && (short) u2(code, at + 1) <= 0
            || number == BACKWARD_BRANCH && opcode == GOTO_W && s4(code, at + 1) <= 0;
    }

    private void add(String place) {
        if (!places.contains(place) && places.size() < MOST) {
            places.add(place);
        }
    }

    private static boolean isBranch(int opcode) {
        return opcode >= 153 && opcode <= 168 || opcode == 198 || opcode == 199;
    }

    private static int u2(byte[] code, int at) {
        return (code[at] & 0xFF) << 8 | code[at + 1] & 0xFF;
    }

    private static int s4(byte[] code, int at) {
        return u2(code, at) << 16 | u2(code, at + 2);
    }

    private static int length(byte[] code, int at) {
        int opcode = code[at] & 0xFF;
        int operands = (at & ~3) + 4;
        switch (opcode) {
            case TABLESWITCH: return operands + 12 + 4 * (s4(code, operands + 8) - s4(code, operands + 4) + 1) - at;
            case LOOKUPSWITCH: return operands + 8 + 8 * s4(code, operands + 4) - at;
            case WIDE: return (code[at + 1] & 0xFF) == IINC ? 6 : 4;
            default: return LENGTHS[opcode];
        }
    }
}
