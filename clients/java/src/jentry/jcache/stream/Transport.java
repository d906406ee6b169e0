package jentry.jcache.stream;

import java.io.IOException;

/** Two byte streams to a server. One thread at a time reads or writes; any other thread may call {@link #cut}. */
interface Transport {
    /** Writes the first {@code count} bytes of the text. */
    void write(byte[] text, int count) throws IOException;

    /**
     * Waits for bytes, and reads at most {@code count} of them into {@code to}, starting at index {@code from}. Returns
     * the number of bytes, or -1 at the end of the stream.
     */
    int read(byte[] to, int from, int count) throws IOException;

    /** Returns whether the stream is seen to have ended. The caller expects no bytes: those that come count as an end. */
    boolean isEnded() throws IOException;

    /** Returns what the server last wrote to standard error, or an empty string if that isn't available. */
    String lastWords();

    /** Closes the stream between rounds. A child process ends because of it, and is waited for. */
    void close() throws IOException;

    /** Closes the stream at once. A thread that is reading or writing gets an IOException or the end of the stream. */
    void cut();
}
