package jentry.jcache.redis;

import java.io.IOException;
import java.util.ArrayList;
import java.util.List;
import java.util.Properties;
import java.util.concurrent.LinkedBlockingQueue;
import java.util.concurrent.TimeUnit;
import java.util.regex.Matcher;
import java.util.regex.Pattern;
import jentry.jcache.impl.Options;

/** Records with MONITOR the commands that clients send to a server, but not those that a module calls. */
final class Monitor implements AutoCloseable {
    private static final Pattern LINE = Pattern.compile("[0-9.]+ \\[0 [0-9.]+:[0-9]+\\] (.*)");
    private static final Pattern WORD = Pattern.compile("\"((?:[^\"\\\\]|\\\\.)*)\"");
    private static final String ID = "[0-9a-f]{40}";
    private static final String MARK = "seen";

    private final RedisServer server;
    private final RedisSocket socket;
    private final LinkedBlockingQueue<String> told = new LinkedBlockingQueue<>();

    Monitor(RedisServer server) throws IOException {
        this.server = server;
        socket = new RedisSocket("127.0.0.1:" + server.port, new Options(server.uri(""), new Properties()));
        socket.ask("MONITOR");
        Thread thread = new Thread(this::listen);
        thread.setDaemon(true);
        thread.start();
    }

    private void listen() {
        try {
            while (true) {
                Matcher line = LINE.matcher(((Resp.Status) socket.in.reply()).text());
                if (line.matches()) {
                    told.add(words(line.group(1)));
                }
            }
        } catch (IOException e) {
            // The connection is closed.
        }
    }

    private static String words(String line) {
        List<String> words = new ArrayList<>();
        for (Matcher word = WORD.matcher(line); word.find();) {
            words.add(word.group(1).matches(ID) ? "ID" : word.group(1));
        }
        return String.join(" ", words);
    }

    /** Returns the commands since the last call. */
    List<String> commands() throws InterruptedException {
        server.ask("ECHO", MARK);
        List<String> all = new ArrayList<>();
        while (true) {
            String next = told.poll(5, TimeUnit.MINUTES);
            if (next == null || next.equals("ECHO " + MARK)) {
                return all;
            }
            all.add(next);
        }
    }

    @Override public void close() {
        socket.close();
    }
}
