package jentry.jcache.impl;

import java.io.ByteArrayInputStream;
import java.io.DataInputStream;
import java.io.IOException;

/** The texts in the constant pool of a class file. It checks nothing; what isn't there is null. */
final class ConstantPool {
    private static final int COUNT_AT = 8, FIRST_AT = 10;
    private static final int UTF8 = 1, LONG = 5, DOUBLE = 6, CLASS = 7, STRING = 8, METHOD_HANDLE = 15, METHOD_TYPE = 16,
        MODULE = 19, PACKAGE = 20;

    private final byte[] file;
    private final int[] places;
    private final int end;

    /** @param file the class file, which may be damaged */
    ConstantPool(byte[] file) {
        this.file = file;
        places = new int[file.length < FIRST_AT ? 0 : u2(COUNT_AT)];
        int at = FIRST_AT;
        for (int i = 1; i < places.length && at + 3 <= file.length; i++) {
            places[i] = at;
            i += file[at] == LONG || file[at] == DOUBLE ? 1 : 0;
            at += length(at);
        }
        end = at;
    }

    private int u2(int at) {
        return (file[at] & 0xFF) << 8 | file[at + 1] & 0xFF;
    }

    /** Returns the length of a constant in bytes. */
    private int length(int at) {
        switch (file[at]) {
            case UTF8: return 3 + u2(at + 1);
            case LONG: case DOUBLE: return 9;
            case CLASS: case STRING: case METHOD_TYPE: case MODULE: case PACKAGE: return 3;
            case METHOD_HANDLE: return 4;
            default: return 5;
        }
    }

    /** Returns the place of the constant of an index if it has this tag, else 0. */
    private int place(int index, int tag) {
        boolean isThere = index > 0 && index < places.length && places[index] > 0 && file[places[index]] == tag;
        return isThere ? places[index] : 0;
    }

    /** Returns the text of the Utf8 constant of an index, which is modified UTF-8 (JVMS 4.4.7). */
    String utf8(int index) {
        int at = place(index, UTF8);
        if (at == 0) {
            return null;
        }
        try {
            return new DataInputStream(new ByteArrayInputStream(file, at + 1, file.length - at - 1)).readUTF();
        } catch (IOException e) {
            return null;
        }
    }

    /** Returns the text of the String constant of an index. */
    String string(int index) {
        int at = place(index, STRING);
        return at == 0 ? null : utf8(u2(at + 1));
    }

    /** Returns the place of the first byte after the pool. */
    int end() {
        return end;
    }
}
