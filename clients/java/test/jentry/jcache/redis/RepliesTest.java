package jentry.jcache.redis;

import static org.junit.jupiter.api.Assertions.assertEquals;
import static org.junit.jupiter.api.Assertions.assertNull;
import static org.junit.jupiter.api.Assertions.assertSame;
import static org.junit.jupiter.api.Assertions.assertThrows;
import static org.junit.jupiter.api.Assertions.assertTrue;

import java.io.ByteArrayInputStream;
import java.io.ByteArrayOutputStream;
import java.io.DataOutputStream;
import java.io.IOException;
import java.nio.charset.StandardCharsets;
import java.util.Arrays;
import javax.cache.processor.EntryProcessorException;
import jentry.jcache.Thrown;
import jentry.jcache.impl.ProcessorFile;
import jentry.jcache.store.Invocation;
import org.junit.jupiter.api.Test;

/** Tests how the module's replies to a processor that threw are read. */
class RepliesTest {
    private static final ProcessorFile FILE = new ProcessorFile("some.Processor", new byte[0]);

    private static Invocation reply(byte[] words) throws IOException {
        byte[] line = Arrays.copyOf(words, words.length + 2);
        line[words.length] = '\r';
        line[words.length + 1] = '\n';
        return Replies.invocation(new Resp.In(new ByteArrayInputStream(line)).reply(), FILE);
    }

    private static Invocation reply(String line) throws IOException {
        return reply(line.getBytes(StandardCharsets.UTF_8));
    }

    private static byte[] modified(String text) throws IOException {
        ByteArrayOutputStream bytes = new ByteArrayOutputStream();
        new DataOutputStream(bytes).writeUTF(text);
        byte[] all = bytes.toByteArray();
        return Arrays.copyOfRange(all, 2, all.length);
    }

    private static Throwable cause(Invocation done) {
        return assertThrows(EntryProcessorException.class, done::result).getCause();
    }

    @Test void theTextIsTheRestOfTheLine() throws IOException {
        for (Thrown it : Thrown.ALL) {
            String line = "-THREW " + it.number() + " " + it.type().getSimpleName();
            if (it.text() != null) {
                it.isThrownBy(reply(line + " " + it.text())::result);
            } else if (it.number() != 1) {
                it.isThrownBy(reply(line)::result);
            }
        }
    }

    @Test void textsMayBeModifiedUtf8() throws IOException {
        String text = "größer als 10 €, \uD83D\uDE00";
        ByteArrayOutputStream line = new ByteArrayOutputStream();
        line.writeBytes("-THREW 8 IllegalArgumentException ".getBytes(StandardCharsets.US_ASCII));
        line.writeBytes(modified(text));
        assertEquals(text, cause(reply(line.toByteArray())).getMessage());
        assertEquals(text, cause(reply("-THREW 8 IllegalArgumentException " + text)).getMessage());
    }

    @Test void withoutATextAnArithmeticExceptionMayBeADivisions() throws IOException {
        Throwable cause = cause(reply("-THREW 1 ArithmeticException"));
        assertSame(ArithmeticException.class, cause.getClass());
        assertEquals("in some.Processor, run by the server", cause.getMessage());
        assertEquals("too much", cause(reply("-THREW 1 ArithmeticException too much")).getMessage());
        assertEquals("", cause(reply("-THREW 9 IllegalStateException ")).getMessage());
        assertNull(cause(reply("-THREW 9 IllegalStateException")).getMessage());
    }

    @Test void anExceptionOfALaterModule() throws IOException {
        Throwable cause = cause(reply("-THREW 11 SomeException a text"));
        assertSame(IllegalStateException.class, cause.getClass());
        assertTrue(cause.getMessage().startsWith("exception 11 "), cause.getMessage());
    }
}
