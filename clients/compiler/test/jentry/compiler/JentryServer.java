package jentry.compiler;

import java.io.BufferedInputStream;
import java.io.BufferedOutputStream;
import java.io.ByteArrayOutputStream;
import java.io.DataInputStream;
import java.io.DataOutputStream;
import java.io.IOException;
import java.util.ArrayList;
import java.util.List;
import jentry.compiler.compare.Call;
import jentry.compiler.compare.Outcome;

/** Runs `jentry serve` as a child process, and speaks the protocol of docs/PROTOCOL.md. */
final class JentryServer implements AutoCloseable {
    private static final String[] EXCEPTIONS = {"", "ArithmeticException", "ArrayIndexOutOfBoundsException", "NullPointerException", "ClassCastException",
        "IncompatibleClassChangeError", "CacheLoaderException", "EntryProcessorException", "IllegalArgumentException", "IllegalStateException",
        "UnsupportedOperationException"};
    private static final int DEFINE = 1, PUT = 2, GET = 3, REMOVE = 4, INVOKE = 6, END = 8;
    private static final int DEFINED = 1, REFUSED = 2, RESULT = 6, DENIED = 8;

    private final Process process;
    private final DataOutputStream out;
    private final DataInputStream in;

    JentryServer(String program) throws IOException {
        process = new ProcessBuilder(program, "serve", "--workers", "1").redirectError(ProcessBuilder.Redirect.INHERIT).start();
        out = new DataOutputStream(new BufferedOutputStream(process.getOutputStream(), 1 << 16));
        in = new DataInputStream(new BufferedInputStream(process.getInputStream(), 1 << 16));
    }

    /** A class definition: its number, or -1 and the refusal, and its bounds of steps and words. */
    record Defined(int number, int refusal, int steps, int words) { }

    private interface Body {
        void write(DataOutputStream to) throws IOException;
    }

    private void send(int kind, Body body) throws IOException {
        ByteArrayOutputStream bytes = new ByteArrayOutputStream();
        DataOutputStream text = new DataOutputStream(bytes);
        text.writeByte(kind);
        body.write(text);
        out.writeInt(bytes.size());
        bytes.writeTo(out);
    }

    private byte[] receive() throws IOException {
        return in.readNBytes(in.readInt());
    }

    private DataInputStream reply() throws IOException {
        return new DataInputStream(new java.io.ByteArrayInputStream(receive()));
    }

    private void endRound() throws IOException {
        send(END, it -> { });
        out.flush();
    }

    Defined define(byte[] classFile) throws IOException {
        send(DEFINE, it -> it.write(classFile));
        endRound();
        DataInputStream reply = reply();
        int kind = reply.readUnsignedByte();
        Defined defined = switch (kind) {
            case DEFINED -> new Defined(reply.readInt(), 0, reply.readInt(), reply.readInt());
            case REFUSED -> new Defined(-1, reply.readUnsignedByte(), 0, 0);
            default -> throw new IOException("a reply of kind " + kind);
        };
        receive();
        return defined;
    }

    /** Runs calls of a class, each on its own entry: calls with equal keys wait for one another. */
    List<Outcome> run(int number, List<Call> calls) throws IOException {
        List<Outcome> outcomes = new ArrayList<>();
        for (int from = 0; from < calls.size();) {
            List<Call> batch = new ArrayList<>();
            while (from < calls.size() && batch.size() < 1000 && batch.stream().noneMatch(has(calls.get(from).key()))) {
                batch.add(calls.get(from++));
            }
            outcomes.addAll(runBatch(number, batch));
        }
        return outcomes;
    }

    private static java.util.function.Predicate<Call> has(long key) {
        return it -> it.key() == key;
    }

    private List<Outcome> runBatch(int number, List<Call> batch) throws IOException {
        for (Call call : batch) {
            send(call.value() == null ? REMOVE : PUT, it -> {
                it.writeLong(call.key());
                if (call.value() != null) {
                    it.writeLong(call.value());
                }
            });
        }
        endRound();
        for (Call call : batch) {
            send(INVOKE, it -> {
                it.writeInt(number);
                it.writeLong(call.key());
                writeArguments(it, call.arguments());
            });
        }
        endRound();
        for (Call call : batch) {
            send(GET, it -> it.writeLong(call.key()));
        }
        endRound();
        for (int i = 0; i <= batch.size(); i++) {
            receive();
        }
        List<Object[]> ends = new ArrayList<>();
        for (int i = 0; i < batch.size(); i++) {
            ends.add(end(reply()));
        }
        receive();
        List<Outcome> outcomes = new ArrayList<>();
        for (Object[] end : ends) {
            DataInputStream reply = reply();
            reply.readUnsignedByte();
            outcomes.add(new Outcome((String) end[0], end[1], (Long) argument(reply)));
        }
        receive();
        return outcomes;
    }

    private static void writeArguments(DataOutputStream to, Object... arguments) throws IOException {
        to.writeByte(arguments.length);
        for (Object argument : arguments) {
            if (argument instanceof Long number) {
                to.writeByte(1);
                to.writeLong(number);
            } else if (argument instanceof Integer number) {
                to.writeByte(2);
                to.writeInt(number);
            } else {
                to.writeByte(argument == null ? 0 : (Boolean) argument ? 4 : 3);
            }
        }
    }

    private static Object[] end(DataInputStream reply) throws IOException {
        int kind = reply.readUnsignedByte();
        if (kind == DENIED || kind != RESULT) {
            throw new IOException("an invocation's reply of kind " + kind);
        }
        return switch (reply.readUnsignedByte()) {
            case 0 -> new Object[] {null, argument(reply)};
            case 1, 3 -> new Object[] {EXCEPTIONS[reply.readUnsignedByte()], null};
            default -> throw new IOException("an invocation is denied");
        };
    }

    private static Object argument(DataInputStream reply) throws IOException {
        return switch (reply.readUnsignedByte()) {
            case 0 -> null;
            case 1 -> (Object) reply.readLong();
            case 2 -> (Object) reply.readInt();
            case 3 -> (Object) false;
            case 4 -> (Object) true;
            default -> throw new IOException("an argument of an unknown kind");
        };
    }

    @Override
    public void close() throws IOException {
        out.close();
        in.close();
        process.destroy();
    }
}
