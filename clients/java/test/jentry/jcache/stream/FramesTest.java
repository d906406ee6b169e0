package jentry.jcache.stream;

import static org.junit.jupiter.api.Assertions.assertArrayEquals;
import static org.junit.jupiter.api.Assertions.assertEquals;
import static org.junit.jupiter.api.Assertions.assertTrue;

import java.io.ByteArrayOutputStream;
import java.io.DataOutputStream;
import java.io.IOException;
import java.nio.file.Files;
import java.nio.file.Path;
import java.util.ArrayList;
import java.util.Arrays;
import java.util.List;
import java.util.regex.Matcher;
import java.util.regex.Pattern;
import javax.cache.CacheException;
import javax.cache.processor.EntryProcessor;
import javax.cache.processor.EntryProcessorException;
import javax.cache.processor.MutableEntry;
import jentry.jcache.ProcessorRefusedException;
import jentry.jcache.StandIn;
import jentry.jcache.impl.ProcessorFile;
import jentry.jcache.store.Invocation;
import org.junit.jupiter.api.Test;

/** Tests that the requests of protocol/frames.tsv are written and its replies read. Its lines are those of examples/frames.py. */
class FramesTest {
    private static final Path TOP = Path.of(System.getProperty("jentry.examples"), "../../..");
    private static final Pattern DENIAL = Pattern.compile("denied by the server: (\\d+ \\w+);");

    /** A processor whose file is never sent. */
    private static final class Unsent implements EntryProcessor<Long, Long, Long> {
        @Override public Long process(MutableEntry<Long, Long> entry, Object... arguments) {
            return null;
        }
    }

    private record Row(String line, byte[] frame) { }

    /** Returns the bytes of a text of the table: pairs of digits, 00*8 for eight of them, and the paths of files. */
    private static byte[] bytesOf(String text) throws IOException {
        ByteArrayOutputStream bytes = new ByteArrayOutputStream();
        for (String word : text.split(" ")) {
            if (word.contains("/")) {
                bytes.write(Files.readAllBytes(TOP.resolve(word)));
                continue;
            }
            String[] parts = word.split("\\*");
            byte[] run = new byte[parts.length == 1 ? 1 : Integer.parseInt(parts[1])];
            Arrays.fill(run, (byte) Integer.parseInt(parts[0], 16));
            bytes.write(run);
        }
        return bytes.toByteArray();
    }

    private static List<Row> rows(String side) throws IOException {
        List<Row> rows = new ArrayList<>();
        for (String line : Files.readAllLines(TOP.resolve("protocol/frames.tsv"))) {
            String[] cells = line.split("\t");
            if (cells[0].equals(side)) {
                rows.add(new Row(cells[1], bytesOf(cells[3])));
            }
        }
        assertTrue(rows.size() > 20, "rows of " + side);
        return rows;
    }

    private static Object argument(String word) {
        switch (word) {
            case "null": return null;
            case "true": case "false": return Boolean.valueOf(word);
            default: break;
        }
        if (word.endsWith("i")) {
            return Integer.valueOf(word.substring(0, word.length() - 1));
        }
        return Long.valueOf(word);
    }

    private static Wire.Out request(Row row) {
        String[] words = row.line.split(" ");
        Wire.Out out = new Wire.Out(0);
        switch (words[0]) {
            case "define": return out.define(Arrays.copyOfRange(row.frame, 5, row.frame.length));
            case "put": return out.putEntry(Long.parseLong(words[1]), Long.parseLong(words[2]));
            case "get": return out.onKey(Wire.GET, Long.parseLong(words[1]));
            case "remove": return out.onKey(Wire.REMOVE, Long.parseLong(words[1]));
            case "contains": return out.onKey(Wire.CONTAINS, Long.parseLong(words[1]));
            case "end": return out.end();
            default: break;
        }
        int number = (int) Long.parseLong(words[1]);
        byte[] arguments = Wire.arguments(Arrays.stream(words).skip(3).map(FramesTest::argument).toArray());
        if (words[0].equals("invoke")) {
            return out.invoke(number, Long.parseLong(words[2]), arguments);
        }
        return out.invokeAll(number, Arrays.stream(words[2].split(",")).mapToLong(Long::parseLong).toArray(), arguments);
    }

    @Test void requestsAreWritten() throws IOException {
        for (Row row : rows(">")) {
            Wire.Out out = request(row);
            assertArrayEquals(row.frame, Arrays.copyOf(out.bytes(), out.length()), row.line);
        }
    }

    /** A transport whose server sends these bytes. */
    private record Sent(byte[] told) implements Transport {
        @Override public void write(byte[] text, int count) { }

        @Override public int read(byte[] to, int from, int count) {
            System.arraycopy(told, 0, to, from, told.length);
            return told.length;
        }

        @Override public boolean isEnded() {
            return false;
        }

        @Override public String lastWords() {
            return "";
        }

        @Override public void close() { }

        @Override public void cut() { }
    }

    /** Gives a reply to a call, and checks that the call reads the whole of it. */
    private static <T extends Call> T told(T call, byte[] reply) throws IOException {
        Wire.In in = new Wire.In(new Sent(StandIn.join(reply, StandIn.END)));
        call.reply(0, in.next(), in);
        assertEquals(Wire.ENDED, in.next());
        return call;
    }

    private static String text(Object value) {
        return value instanceof Integer ? value + "i" : String.valueOf(value);
    }

    /** Returns a class that has the text {@code text=N} at each index N that a line names so. */
    private static ProcessorFile file(String line) throws IOException {
        List<Integer> indexes = Pattern.compile("text=(\\d+)").matcher(line).results().map(it -> Integer.valueOf(it.group(1))).sorted().toList();
        int most = indexes.isEmpty() ? 0 : indexes.get(indexes.size() - 1);
        ByteArrayOutputStream bytes = new ByteArrayOutputStream();
        DataOutputStream out = new DataOutputStream(bytes);
        out.writeLong(0xCAFEBABE_0000_0034L);
        out.writeShort(most + 1);
        for (int i = 1; i <= most; i++) {
            if (i <= indexes.size()) {
                out.writeByte(1);
                out.writeUTF("text=" + indexes.get(i - 1));
            } else {
                out.writeByte(8);
                out.writeShort(Math.max(1, 1 + indexes.indexOf(i)));
            }
        }
        return new ProcessorFile("a processor", bytes.toByteArray());
    }

    /** Returns the words of a result or a failure. Those of an exception are without its number, which Java hasn't. */
    private static String text(Invocation invocation) {
        try {
            return text(invocation.result());
        } catch (EntryProcessorException e) {
            Throwable own = e.getCause() == null ? e : e.getCause();
            boolean hasText = own.getMessage() != null && own.getMessage().startsWith("text=");
            return "threw " + own.getClass().getSimpleName() + (hasText ? " " + own.getMessage() : "");
        } catch (CacheException e) {
            return denial(e);
        }
    }

    private static String denial(CacheException e) {
        Matcher denial = DENIAL.matcher(e.getMessage());
        assertTrue(denial.find(), e.getMessage());
        return "denied " + denial.group(1);
    }

    private static String defined(byte[] reply) throws IOException {
        try {
            return "defined class=" + told(new Calls.Define(ProcessorFile.of(new Unsent(), false)), reply).answer();
        } catch (ProcessorRefusedException e) {
            return "refused " + e.number() + ", detail " + e.detail();
        }
    }

    private static String results(String line, byte[] reply) throws IOException {
        long[] keys = Pattern.compile("(-?\\d+): ").matcher(line).results().mapToLong(it -> Long.parseLong(it.group(1))).toArray();
        List<String> found = new ArrayList<>();
        told(new Calls.InvokeAll(new Wire.Out(0), keys, file(line), (it, key) -> found.add(key + ": " + text(it))), reply).answer();
        return ("results " + String.join(", ", found)).strip();
    }

    private static Calls.One one(int expected, byte[] reply) throws IOException {
        return told(new Calls.One(new Wire.Out(0), expected, "a request"), reply);
    }

    private static String denied(byte[] reply) throws IOException {
        try {
            return text(one(Wire.DONE, reply).answer());
        } catch (CacheException e) {
            return denial(e);
        }
    }

    /** Returns the line of a reply, as this client has it after it was read. */
    private static String line(Row row) throws IOException {
        byte[] reply = row.frame;
        switch (reply[4]) {
            case Wire.DEFINED: case Wire.REFUSED: return defined(reply);
            case Wire.DONE: return one(Wire.DONE, reply).answer() == null ? "done" : "";
            case Wire.VALUE: return "value " + text(one(Wire.VALUE, reply).answer()).replace("null", "none");
            case Wire.FLAG: return "flag " + one(Wire.FLAG, reply).answer();
            case Wire.RESULT:
                String result = text(told(new Calls.Invoke(new Wire.Out(0), file(row.line)), reply).invocation());
                return result.startsWith("threw ") ? result : "result " + result;
            case Wire.RESULTS: return results(row.line, reply);
            case Wire.DENIED: return denied(reply);
            default: return new Wire.In(new Sent(reply)).next() == Wire.ENDED ? "end" : "";
        }
    }

    @Test void repliesAreRead() throws IOException {
        for (Row row : rows("<")) {
            String wanted = row.line.replaceAll("threw \\d+ ", "threw ").replaceAll("(defined class=\\d+) .*", "$1");
            assertEquals(wanted, line(row), row.line);
        }
    }
}
