package jentry.jcache.impl;

import static org.junit.jupiter.api.Assertions.assertEquals;
import static org.junit.jupiter.api.Assertions.assertNull;

import java.io.ByteArrayOutputStream;
import java.io.DataOutputStream;
import java.io.IOException;
import java.util.Arrays;
import org.junit.jupiter.api.Test;

/** Tests the texts of a constant pool that has constants of all kinds. */
class ConstantPoolTest {
    private static final String TEXT = "a\0ö€\uD83D\uDE00";
    private static final int FIRST = 1, STRING = 18, SECOND = 19;

    /** Returns a class file with the constants 1 to 19: a text, one of each kind, a String of the text 19, and that text. */
    private static byte[] file() throws IOException {
        ByteArrayOutputStream bytes = new ByteArrayOutputStream();
        DataOutputStream out = new DataOutputStream(bytes);
        out.writeLong(0xCAFEBABE_0000_0034L);
        out.writeShort(20);
        out.writeByte(1);
        out.writeUTF("first");
        int[][] others = {{3, 4}, {4, 4}, {5, 8}, {6, 8}, {7, 2}, {9, 4}, {10, 4}, {11, 4}, {12, 4}, {15, 3}, {16, 2}, {17, 4}, {18, 4}, {20, 2}};
        for (int[] it : others) {
            out.writeByte(it[0]);
            out.write(new byte[it[1]]);
        }
        out.writeByte(8);
        out.writeShort(SECOND);
        out.writeByte(1);
        out.writeUTF(TEXT);
        out.writeShort(0x21);
        return bytes.toByteArray();
    }

    @Test void textsAndTheEnd() throws IOException {
        byte[] file = file();
        ConstantPool pool = new ConstantPool(file);
        assertEquals("first", pool.utf8(FIRST));
        assertEquals(TEXT, pool.utf8(SECOND));
        assertEquals(TEXT, pool.string(STRING));
        assertEquals(file.length - 2, pool.end());
    }

    @Test void whatIsNoText() throws IOException {
        ConstantPool pool = new ConstantPool(file());
        for (int index : new int[] {-1, 0, FIRST, 2, 4, 5, 6, 7, 17, SECOND, 20, 65_535}) {
            assertNull(pool.string(index), "the index " + index);
        }
        assertNull(pool.utf8(STRING));
    }

    @Test void aFileThatIsCutOff() throws IOException {
        byte[] file = file();
        for (int length = 0; length < file.length - 2; length++) {
            ConstantPool pool = new ConstantPool(Arrays.copyOf(file, length));
            assertNull(pool.string(STRING), "of " + length + " bytes");
        }
    }
}
