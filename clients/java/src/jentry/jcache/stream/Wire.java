package jentry.jcache.stream;

import java.io.EOFException;
import java.io.IOException;
import java.util.Arrays;

/** The frames of the protocol: requests are written, replies are read. Numbers are big-endian. */
public final class Wire {
    // generated from the tables in protocol/ by protocol/generate.py --write
    /** The kinds of requests. */
    public static final int DEFINE = 1, PUT = 2, GET = 3, REMOVE = 4, CONTAINS = 5, INVOKE = 6, INVOKE_ALL = 7,
        END = 8;

    /** The kinds of replies. */
    static final int DEFINED = 1, REFUSED = 2, DONE = 3, VALUE = 4, FLAG = 5, RESULT = 6, RESULTS = 7,
        DENIED = 8, ENDED = 9;

    /** The kinds of values in arguments and results. */
    static final int NULL = 0, LONG = 1, INTEGER = 2, FALSE = 3, TRUE = 4;

    /** The maximum length of a frame, in bytes after the length field. */
    static final int LONGEST = 131_072;

    /** The maximum number of jobs in a round: one for each call, and one for each key of an invokeAll. */
    static final int MOST_JOBS = 4_096;

    /** The maximum number of accepted classes of a stream. */
    static final int MOST_CLASSES = 4_096;

    /** The maximum number of arguments of an invocation. */
    static final int MOST_ARGUMENTS = 8;
    // end of the generated part

    private Wire() { }

    /** A growing buffer of request frames. */
    static final class Out {
        private byte[] bytes;
        private int length;

        /** @param room the initial capacity in bytes */
        Out(int room) {
            bytes = new byte[room];
        }

        byte[] bytes() {
            return bytes;
        }

        int length() {
            return length;
        }

        void clear() {
            length = 0;
        }

        private void room(int more) {
            if (length + more > bytes.length) {
                bytes = Arrays.copyOf(bytes, Math.max(length + more, 2 * bytes.length));
            }
        }

        Out u1(int x) {
            room(1);
            bytes[length++] = (byte) x;
            return this;
        }

        Out u2(int x) {
            return u1(x >>> 8).u1(x);
        }

        Out s4(int x) {
            room(4);
            for (int shift = 24; shift >= 0; shift -= 8) {
                bytes[length++] = (byte) (x >>> shift);
            }
            return this;
        }

        Out s8(long x) {
            return s4((int) (x >>> 32)).s4((int) x);
        }

        Out put(byte[] text) {
            return put(text, text.length);
        }

        private Out put(byte[] text, int count) {
            room(count);
            System.arraycopy(text, 0, bytes, length, count);
            length += count;
            return this;
        }

        Out put(Out other) {
            return put(other.bytes, other.length);
        }

        /** Adds a get, a remove or a contains. */
        Out onKey(int kind, long key) {
            return s4(9).u1(kind).s8(key);
        }

        Out define(byte[] file) {
            return s4(1 + file.length).u1(DEFINE).put(file);
        }

        Out putEntry(long key, long value) {
            return s4(17).u1(PUT).s8(key).s8(value);
        }

        Out invoke(int number, long key, byte[] arguments) {
            return s4(13 + arguments.length).u1(INVOKE).s4(number).s8(key).put(arguments);
        }

        Out invokeAll(int number, long[] keys, byte[] arguments) {
            s4(7 + 8 * keys.length + arguments.length).u1(INVOKE_ALL).s4(number).u2(keys.length);
            for (long key : keys) {
                s8(key);
            }
            return put(arguments);
        }

        Out end() {
            return s4(1).u1(END);
        }
    }

    /**
     * Encodes the arguments of an invocation.
     *
     * @throws IllegalArgumentException if there are more than eight, or one is no Long, Integer, Boolean or null
     */
    static byte[] arguments(Object... arguments) {
        if (arguments.length > MOST_ARGUMENTS) {
            throw new IllegalArgumentException(
                "an invocation takes at most " + MOST_ARGUMENTS + " arguments, not " + arguments.length);
        }
        Out out = new Out(1 + 9 * arguments.length);
        out.u1(arguments.length);
        for (Object argument : arguments) {
            if (argument == null) {
                out.u1(NULL);
            } else if (argument instanceof Long) {
                out.u1(LONG).s8((Long) argument);
            } else if (argument instanceof Integer) {
                out.u1(INTEGER).s4((Integer) argument);
            } else if (argument instanceof Boolean) {
                out.u1((Boolean) argument ? TRUE : FALSE);
            } else {
                throw new IllegalArgumentException(
                    "an argument is a Long, an Integer, a Boolean or null, not a " + argument.getClass().getName());
            }
        }
        return Arrays.copyOf(out.bytes, out.length);
    }

    /**
     * Reads the replies of a stream, frame by frame. A malformed reply causes an IOException and is never read past its
     * frame.
     */
    static final class In {
        private final Transport from;
        private final byte[] ahead = new byte[4 + LONGEST];
        private int at;
        private int end;
        private int cursor;
        private int last;

        In(Transport from) {
            this.from = from;
        }

        private void need(int count) throws IOException {
            if (end - at >= count) {
                return;
            }
            System.arraycopy(ahead, at, ahead, 0, end - at);
            end -= at;
            at = 0;
            while (end < count) {
                int got = from.read(ahead, end, ahead.length - end);
                if (got < 0) {
                    throw new EOFException("the server's stream ended");
                }
                end += got;
            }
        }

        /** Moves to the next frame and returns its kind. */
        int next() throws IOException {
            if (cursor != last) {
                throw new IOException("a reply is " + (last - cursor) + " bytes longer than replies of its kind are");
            }
            need(4);
            cursor = at;
            last = at + 4;
            int length = s4();
            if (length < 1 || length > LONGEST) {
                throw new IOException("a reply of " + length + " bytes");
            }
            need(4 + length);
            cursor = at + 4;
            last = cursor + length;
            at = last;
            return u1();
        }

        int u1() throws IOException {
            if (cursor == last) {
                throw new IOException("a reply is shorter than replies of its kind are");
            }
            return ahead[cursor++] & 0xFF;
        }

        int u2() throws IOException {
            return u1() << 8 | u1();
        }

        int s4() throws IOException {
            return u2() << 16 | u2();
        }

        long s8() throws IOException {
            return (long) s4() << 32 | s4() & 0xFFFF_FFFFL;
        }

        boolean flag() throws IOException {
            int flag = u1();
            if (flag > 1) {
                throw new IOException("a flag of " + flag);
            }
            return flag == 1;
        }

        /** Reads a Long, an Integer, a Boolean or null. */
        Object argument() throws IOException {
            int kind = u1();
            switch (kind) {
                case NULL: return null;
                case LONG: return s8();
                case INTEGER: return s4();
                case FALSE: return false;
                case TRUE: return true;
                default: throw new IOException("an argument of kind " + kind);
            }
        }
    }
}
