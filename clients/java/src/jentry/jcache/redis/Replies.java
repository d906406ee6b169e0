package jentry.jcache.redis;

import java.io.ByteArrayInputStream;
import java.io.DataInputStream;
import java.io.IOException;
import java.nio.ByteBuffer;
import java.nio.charset.StandardCharsets;
import java.util.Locale;
import javax.cache.CacheException;
import jentry.jcache.ProcessorRefusedException;
import jentry.jcache.impl.Places;
import jentry.jcache.impl.ProcessorFaults;
import jentry.jcache.impl.ProcessorFile;
import jentry.jcache.store.Effect;
import jentry.jcache.store.Invocation;

/** Converts replies of Redis to results of a store. */
final class Replies {
    private static final int MOST_SHOWN = 40;

    private Replies() { }

    /** Returns the reply, or throws if it is an error. */
    static Object checked(Object reply) {
        if (reply instanceof Resp.Failure f) {
            throw new CacheException("Redis: " + f.text());
        }
        return reply;
    }

    /** Returns the replies, or throws if one of them is an error. */
    static Object[] checked(Object[] replies) {
        for (Object reply : replies) {
            checked(reply);
        }
        return replies;
    }

    /** Returns the value of a string with a decimal long, or null if there is none. */
    static Long value(Object reply) {
        Object answer = checked(reply);
        if (answer == null || answer instanceof Long) {
            return (Long) answer;
        }
        String text = text(answer);
        try {
            return Long.valueOf(text);
        } catch (NumberFormatException e) {
            String shown = text.length() > MOST_SHOWN ? text.substring(0, MOST_SHOWN) + ".." : text;
            throw new CacheException("the entry is no long, but " + shown, e);
        }
    }

    static String text(Object reply) {
        return new String((byte[]) reply, StandardCharsets.ISO_8859_1);
    }

    /** Converts the reply to JENTRY.APPLY: value, its kind, effect, before, after, steps, words. */
    static Invocation invocation(Object reply, ProcessorFile file) {
        if (reply instanceof Resp.Failure f && f.is("THREW")) {
            return thrown(f.text(), file);
        }
        Object[] row = (Object[]) checked(reply);
        Object result = result((Long) row[0], text(row[1]));
        Effect effect = Effect.valueOf(text(row[2]).toUpperCase(Locale.ROOT));
        return new Invocation(result, null, effect, value(row[3]), value(row[4]));
    }

    /**
     * Converts THREW with the number, the name and perhaps the text of an exception. An ArithmeticException without a
     * text may come from a throw of the processor or from a division.
     */
    private static Invocation thrown(String reply, ProcessorFile file) {
        String[] words = reply.split(" ", 4);
        int number = Integer.parseInt(words[1]);
        if (words.length < 4 && number < ProcessorFaults.FIRST_THROWN) {
            return Invocation.failed(() -> ProcessorFaults.of(number, file.type()));
        }
        String text = words.length < 4 ? null : decoded(words[3].getBytes(StandardCharsets.ISO_8859_1));
        return Invocation.failed(() -> ProcessorFaults.thrown(number, text));
    }

    /** Decodes a text of a class file, which is modified UTF-8 or, if a server has converted it, UTF-8. */
    private static String decoded(byte[] text) {
        ByteBuffer utf = ByteBuffer.allocate(2 + text.length).putShort((short) text.length).put(text);
        try {
            return new DataInputStream(new ByteArrayInputStream(utf.array())).readUTF();
        } catch (IOException e) {
            return new String(text, StandardCharsets.UTF_8);
        }
    }

    /** Returns the result of a run from its number, and the name of its type. */
    private static Object result(Long number, String type) {
        return switch (type) {
            case "null" -> null;
            case "Long" -> number;
            case "Integer" -> Math.toIntExact(number);
            case "Boolean" -> number != 0;
            default -> throw new CacheException("Redis: a result of the type " + type);
        };
    }

    /** Checks the reply to JENTRY.DEFINE. */
    static void defined(Object reply, ProcessorFile file) {
        if (reply instanceof Resp.Failure f && f.is("REFUSED")) {
            String[] words = f.text().split(" ");
            int number = Integer.parseInt(words[1]);
            int detail = words.length > 4 && (words[3].equals("opcode") || words[3].equals("at"))
                ? Integer.parseInt(words[4]) : 0;
            throw new ProcessorRefusedException(file.type(), number, detail,
                Places.of(file.bytes(), number, detail));
        }
        checked(reply);
    }
}
