package jentry.jcache.stream;

import java.io.IOException;
import java.io.InputStream;
import java.io.OutputStream;
import java.nio.charset.StandardCharsets;
import java.util.List;
import java.util.Map;
import java.util.concurrent.TimeUnit;

/** A server that runs as a child process, connected by two pipes. Its entries are lost when it ends. */
final class ChildTransport implements Transport {
    private static final int CLOSE_MILLIS = 2_000;
    private static final int LAST_WORDS_MILLIS = 250;
    private static final int MOST_WORDS = 1_000;

    // With glibc these make the server keep freed memory from one round to the next: allocating it from the system
    // again costs as much as the calls.
    private static final Map<String, String> KEEPS_MEMORY =
        Map.of("MALLOC_MMAP_THRESHOLD_", "33554432", "MALLOC_TRIM_THRESHOLD_", "67108864");

    private final Process process;
    private final InputStream in;
    private final OutputStream out;
    private final Thread listener;
    private final StringBuilder words = new StringBuilder();

    /** Starts the command. */
    ChildTransport(List<String> command) throws IOException {
        ProcessBuilder builder = new ProcessBuilder(command);
        KEEPS_MEMORY.forEach(builder.environment()::putIfAbsent);
        process = builder.start();
        in = process.getInputStream();
        out = process.getOutputStream();
        listener = new Thread(this::listen, "jentry-standard-error");
        listener.setDaemon(true);
        listener.start();
    }

    /**
     * Keeps the end of what the child writes to standard error. It reads continuously, because a full pipe would block
     * the server.
     */
    private void listen() {
        byte[] some = new byte[MOST_WORDS];
        try (InputStream error = process.getErrorStream()) {
            for (int got = error.read(some); got >= 0; got = error.read(some)) {
                synchronized (words) {
                    words.append(new String(some, 0, got, StandardCharsets.UTF_8));
                    words.delete(0, Math.max(0, words.length() - MOST_WORDS));
                }
            }
        } catch (IOException e) {
            // The process was ended from here; the words read so far are kept.
        }
    }

    @Override public void write(byte[] text, int count) throws IOException {
        out.write(text, 0, count);
        out.flush();
    }

    @Override public int read(byte[] to, int from, int count) throws IOException {
        return in.read(to, from, count);
    }

    @Override public boolean isEnded() {
        return !process.isAlive();
    }

    @Override public String lastWords() {
        boolean interrupted = Thread.interrupted();
        try {
            if (process.waitFor(LAST_WORDS_MILLIS, TimeUnit.MILLISECONDS)) {
                listener.join(LAST_WORDS_MILLIS);
            }
        } catch (InterruptedException e) {
            interrupted = true;
        }
        if (interrupted) {
            Thread.currentThread().interrupt();
        }
        synchronized (words) {
            return words.toString().trim();
        }
    }

    @Override public void close() throws IOException {
        try {
            out.close();
            if (!process.waitFor(CLOSE_MILLIS, TimeUnit.MILLISECONDS)) {
                cut();
            }
        } catch (InterruptedException e) {
            cut();
            Thread.currentThread().interrupt();
        }
    }

    /**
     * Ends the process and its descendants: if the command is a script, the server is a child of it that holds the
     * pipes.
     */
    @Override public void cut() {
        process.descendants().forEach(ProcessHandle::destroyForcibly);
        process.destroyForcibly();
    }
}
