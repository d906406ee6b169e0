package jentry.jcache.redis;

import java.io.EOFException;
import java.io.IOException;
import java.io.InputStream;
import java.nio.charset.StandardCharsets;
import java.util.Arrays;

/** The Redis serialization protocol (RESP), version 2, and of version 3 what the near caches receive. */
final class Resp {
    private Resp() { }

    /** An error reply. */
    record Failure(String text) {
        /** Returns the first word, which is the kind of the error. */
        String code() {
            int end = text.indexOf(' ');
            return end < 0 ? text : text.substring(0, end);
        }

        boolean is(String code) {
            return code().equals(code);
        }
    }

    /** A status reply such as OK. */
    record Status(String text) { }

    /** What a server sends by itself in version 3: its kind, and then what belongs to it. */
    record Push(Object[] parts) { }

    /** Commands that are sent together: on the shared connection no other thread's command comes between them. */
    static final class Commands {
        private static final byte[] END = {'\r', '\n'};
        private byte[] bytes = new byte[96];
        private int length;
        private int count;

        /** Adds a command. Each word is a byte array, or an object whose string form is sent. */
        Commands add(Object... words) {
            line('*', words.length);
            for (Object word : words) {
                byte[] text = word instanceof byte[] b ? b : word.toString().getBytes(StandardCharsets.UTF_8);
                line('$', text.length);
                put(text, text.length);
                put(END, END.length);
            }
            count++;
            return this;
        }

        /** Appends other commands. */
        Commands add(Commands others) {
            put(others.bytes, others.length);
            count += others.count;
            return this;
        }

        private void line(char kind, int number) {
            byte[] text = (kind + Integer.toString(number) + "\r\n").getBytes(StandardCharsets.US_ASCII);
            put(text, text.length);
        }

        private void put(byte[] text, int size) {
            if (length + size > bytes.length) {
                bytes = Arrays.copyOf(bytes, Math.max(2 * bytes.length, length + size));
            }
            System.arraycopy(text, 0, bytes, length, size);
            length += size;
        }

        /** Returns the number of replies to expect. */
        int count() {
            return count;
        }

        /** Returns the buffer, of which the first {@link #length} bytes are used. */
        byte[] bytes() {
            return bytes;
        }

        int length() {
            return length;
        }

        /** Returns the same commands with ASKING before them, as a node that is importing the slot needs. */
        Commands asking() {
            return new Commands().add("ASKING").add(this);
        }
    }

    /** Reads replies: a Long, a byte[], a Status, a Failure, a Push, an Object[], or null. */
    static final class In {
        private static final int LONGEST = 512 << 20;
        private static final int LONGEST_ARRAY = 1 << 20;
        private static final int LONGEST_LINE = 1 << 16;
        private static final int MOST_DEPTH = 8;
        private final InputStream in;
        private final byte[] room = new byte[1 << 16];
        private int at;
        private int end;

        In(InputStream in) {
            this.in = in;
        }

        private void fill() throws IOException {
            if (at == end) {
                int got = in.read(room);
                if (got < 0) {
                    throw new EOFException("the server ended the connection");
                }
                at = 0;
                end = got;
            }
        }

        private int next() throws IOException {
            fill();
            return room[at++] & 0xFF;
        }

        private String line() throws IOException {
            StringBuilder text = new StringBuilder();
            for (int c = next(); c != '\r'; c = next()) {
                if (text.length() == LONGEST_LINE) {
                    throw new IOException("a line of more than " + LONGEST_LINE + " bytes");
                }
                text.append((char) c);
            }
            newline();
            return text.toString();
        }

        private void newline() throws IOException {
            if (next() != '\n') {
                throw new IOException("a line without its end");
            }
        }

        private long number() throws IOException {
            String text = line();
            try {
                return Long.parseLong(text);
            } catch (NumberFormatException e) {
                throw new IOException("a number that is none: " + text, e);
            }
        }

        Object reply() throws IOException {
            return reply(0);
        }

        private Object reply(int depth) throws IOException {
            int kind = next();
            switch (kind) {
                case '+': return new Status(line());
                case '-': return new Failure(line());
                case ':': return number();
                case '$': return bytes(number());
                case '*': return array(number(), depth);
                case '%': return array(2 * number(), depth);
                case '>': return new Push(array(number(), depth));
                case '_': return nothing();
                default: throw new IOException("a reply that begins with the byte " + kind);
            }
        }

        private Object nothing() throws IOException {
            line();
            return null;
        }

        private Object[] array(long length, int depth) throws IOException {
            if (length < 0) {
                return null;
            } else if (length > LONGEST_ARRAY || depth == MOST_DEPTH) {
                throw new IOException("an array of " + length + " replies, " + depth + " deep");
            }
            Object[] all = new Object[(int) length];
            for (int i = 0; i < all.length; i++) {
                all[i] = reply(depth + 1);
            }
            return all;
        }

        private byte[] bytes(long length) throws IOException {
            if (length < 0) {
                return null;
            } else if (length > LONGEST) {
                throw new IOException("a string of " + length + " bytes");
            }
            byte[] text = new byte[(int) length];
            for (int got = 0; got < text.length;) {
                fill();
                int some = Math.min(text.length - got, end - at);
                System.arraycopy(room, at, text, got, some);
                at += some;
                got += some;
            }
            if (next() != '\r') {
                throw new IOException("a string without its end");
            }
            newline();
            return text;
        }
    }
}
