package jentry.jcache.redis;

import java.io.IOException;
import java.io.OutputStream;
import java.net.InetAddress;
import java.net.ServerSocket;
import java.net.Socket;
import java.net.URI;
import java.nio.charset.StandardCharsets;
import java.security.MessageDigest;
import java.security.NoSuchAlgorithmException;
import java.util.HexFormat;
import java.util.List;
import java.util.Map;
import java.util.Properties;
import java.util.Set;
import java.util.concurrent.ConcurrentHashMap;
import java.util.concurrent.atomic.AtomicInteger;
import javax.cache.integration.CacheLoaderException;
import javax.cache.processor.EntryProcessor;
import javax.cache.processor.EntryProcessorException;
import jentry.jcache.impl.Options;

/**
 * Passes the commands of clients to a redis-server. Where that is without the module, it answers what the module would: it accepts every class, and runs it in
 * this JVM while no other run is in progress.
 */
final class StandInModule implements AutoCloseable {
    /** The exceptions of processors, by the module's numbers from 1 on. */
    private static final List<Class<?>> THROWN = List.of(ArithmeticException.class, ArrayIndexOutOfBoundsException.class, NullPointerException.class,
        ClassCastException.class, IncompatibleClassChangeError.class, CacheLoaderException.class, EntryProcessorException.class,
        IllegalArgumentException.class, IllegalStateException.class, UnsupportedOperationException.class);
    private static final byte[] NULL = "$-1\r\n".getBytes(StandardCharsets.US_ASCII);

    private final String server;
    private final boolean answers;
    private final ServerSocket listener;
    private final Map<String, EntryProcessor<Long, Long, ?>> classes = new ConcurrentHashMap<>();
    private final Set<Pipe> pipes = ConcurrentHashMap.newKeySet();
    private final RedisSocket own;
    private volatile boolean isHeld;
    private volatile boolean isDropping;

    /**
     * Starts.
     *
     * @param port that of the redis-server
     * @param answers whether to answer the commands of the module
     */
    StandInModule(int port, boolean answers) throws IOException {
        this.answers = answers;
        server = "127.0.0.1:" + port;
        own = connect();
        listener = new ServerSocket(0, 50, InetAddress.getLoopbackAddress());
        start(this::accept);
    }

    private RedisSocket connect() throws IOException {
        return new RedisSocket(server, new Options(URI.create("jentry+redis://" + server), new Properties()));
    }

    int port() {
        return listener.getLocalPort();
    }

    private static void start(Runnable work) {
        Thread thread = new Thread(work, "stand-in");
        thread.setDaemon(true);
        thread.start();
    }

    private void accept() {
        try {
            while (true) {
                serve(listener.accept());
            }
        } catch (IOException e) {
            // The test has ended.
        }
    }

    private void serve(Socket client) throws IOException {
        RedisSocket upstream;
        try {
            upstream = connect();
        } catch (IOException e) {
            client.close();
            return;
        }
        Pipe pipe = new Pipe(client, upstream);
        pipes.add(pipe);
        start(pipe::forward);
        start(pipe::back);
    }

    /** Loses what the server sends by itself from now on, or lets it pass again. */
    void drop(boolean wanted) {
        isDropping = wanted;
    }

    /** Holds all back that comes on the connections on which the server sends something by itself, or lets it pass again. */
    synchronized void hold(boolean wanted) {
        isHeld = wanted;
        notifyAll();
    }

    private synchronized void pass() {
        while (isHeld) {
            try {
                wait();
            } catch (InterruptedException e) {
                throw new IllegalStateException(e);
            }
        }
    }

    /** Closes the connections on which the server sends something by itself. Returns how many they were. */
    int cutThoseThatListen() {
        AtomicInteger count = new AtomicInteger();
        pipes.stream().filter(it -> it.isTracking).forEach(it -> {
            it.close();
            count.incrementAndGet();
        });
        return count.get();
    }

    /** A client's connection, and its own to the server. */
    private final class Pipe {
        private final Socket client;
        private final RedisSocket upstream;
        private final OutputStream out;
        private final AtomicInteger awaited = new AtomicInteger();
        private volatile boolean isTracking;

        Pipe(Socket client, RedisSocket upstream) throws IOException {
            this.client = client;
            this.upstream = upstream;
            out = client.getOutputStream();
        }

        private void forward() {
            try {
                Resp.In in = new Resp.In(client.getInputStream());
                while (true) {
                    Object[] words = (Object[]) in.reply();
                    String name = Replies.text(words[0]).toUpperCase();
                    isTracking |= name.equals("CLIENT");
                    if (answers && (name.startsWith("JENTRY.") || name.equals("COMMAND"))) {
                        while (awaited.get() > 0) {
                            Thread.onSpinWait();
                        }
                        reply(answer(name, words));
                    } else {
                        awaited.incrementAndGet();
                        upstream.send(words);
                    }
                }
            } catch (IOException | RuntimeException e) {
                close();
            }
        }

        private void back() {
            try {
                while (true) {
                    Object reply = upstream.in.reply();
                    if (isTracking) {
                        pass();
                    }
                    if (isDropping && reply instanceof Resp.Push) {
                        continue;
                    }
                    reply(reply);
                    awaited.decrementAndGet();
                }
            } catch (IOException | RuntimeException e) {
                close();
            }
        }

        private synchronized void reply(Object reply) throws IOException {
            out.write(bytes(reply));
        }

        private void close() {
            pipes.remove(this);
            upstream.close();
            try {
                client.close();
            } catch (IOException e) {
                // It is closed as far as possible.
            }
        }
    }

    /** Encodes a reply. */
    private static byte[] bytes(Object reply) {
        if (reply == null) {
            return NULL;
        } else if (reply instanceof byte[] text) {
            return join(("$" + text.length + "\r\n").getBytes(StandardCharsets.US_ASCII), text, "\r\n".getBytes(StandardCharsets.US_ASCII));
        } else if (reply instanceof Object[] all) {
            return all("*", all);
        } else if (reply instanceof Resp.Push push) {
            return all(">", push.parts());
        }
        String line = reply instanceof Resp.Failure f ? "-" + f.text() : reply instanceof Resp.Status s ? "+" + s.text() : ":" + reply;
        // The characters of a line that was read are its bytes.
        return (line + "\r\n").getBytes(StandardCharsets.ISO_8859_1);
    }

    private static byte[] all(String kind, Object[] parts) {
        byte[] text = (kind + parts.length + "\r\n").getBytes(StandardCharsets.US_ASCII);
        for (Object it : parts) {
            text = join(text, bytes(it));
        }
        return text;
    }

    private static byte[] join(byte[]... parts) {
        return jentry.jcache.StandIn.join(parts);
    }

    private Object answer(String name, Object[] words) throws IOException {
        if (name.equals("COMMAND")) {
            return new Object[] {new Object[] {words[2]}};
        } else if (name.equals("JENTRY.DEFINE")) {
            return define((byte[]) words[1]);
        }
        return apply(words);
    }

    private Object define(byte[] file) {
        try {
            String id = HexFormat.of().formatHex(MessageDigest.getInstance("SHA-1").digest(file));
            classes.put(id, new Loader().processor(file));
            return new Object[] {id.getBytes(StandardCharsets.US_ASCII), 0L, 0L, 0L, 0L};
        } catch (NoSuchAlgorithmException | ReflectiveOperationException e) {
            throw new IllegalStateException(e);
        }
    }

    private static final class Loader extends ClassLoader {
        Loader() {
            super(StandInModule.class.getClassLoader());
        }

        @SuppressWarnings("unchecked")
        EntryProcessor<Long, Long, ?> processor(byte[] file) throws ReflectiveOperationException {
            var constructor = defineClass(null, file, 0, file.length).getDeclaredConstructor();
            constructor.setAccessible(true);
            return (EntryProcessor<Long, Long, ?>) constructor.newInstance();
        }
    }

    /** Runs a processor: JENTRY.APPLY CREATED UPDATED ACCESSED MODE ID KEY [ARG ..]. */
    private synchronized Object apply(Object[] words) throws IOException {
        String key = Replies.text(words[6]);
        EntryProcessor<Long, Long, ?> processor = classes.get(Replies.text(words[5]));
        if (processor == null) {
            return new Resp.Failure("NOCLASS no class of this id here");
        }
        Long before = Replies.value(own.ask("GET", key));
        StandInEntry entry = new StandInEntry(Long.parseLong(key.substring(key.lastIndexOf(':') + 1)), before);
        Object[] arguments = new Object[words.length - 7];
        for (int i = 0; i < arguments.length; i++) {
            arguments[i] = argument(Replies.text(words[i + 7]));
        }
        Object result;
        try {
            result = processor.process(entry, arguments);
        } catch (RuntimeException e) {
            return failure(e);
        }
        String effect = entry.effect();
        int time = effect.equals("keep") ? 3 : before == null ? 1 : 2;
        boolean isGone = Replies.text(words[4]).equals("do") && commit(key, effect, before, entry.getValue(), Long.parseLong(Replies.text(words[time])));
        String type = result == null ? "null" : result.getClass().getSimpleName();
        Long number = result instanceof Boolean is ? Long.valueOf(is ? 1 : 0) : result == null ? null : Long.valueOf(((Number) result).longValue());
        return new Object[] {number, text(type), text(effect), digits(before), isGone ? null : digits(entry.getValue()), 1L, 0L};
    }

    /** Returns the reply to a run that threw. What the JVM says of a fault is no text of the module; a division's isn't told from that of a throw. */
    private static Resp.Failure failure(RuntimeException e) {
        int number = 1 + THROWN.indexOf(e.getClass());
        boolean hasText = e.getMessage() != null && (number == 1 ? !e.getMessage().equals("/ by zero") : number > 6);
        String text = hasText ? " " + new String(e.getMessage().getBytes(StandardCharsets.UTF_8), StandardCharsets.ISO_8859_1) : "";
        return new Resp.Failure("THREW " + number + " " + e.getClass().getSimpleName() + text);
    }

    private static byte[] text(String of) {
        return of.getBytes(StandardCharsets.US_ASCII);
    }

    private static byte[] digits(Long value) {
        return value == null ? null : text(value.toString());
    }

    private static Object argument(String text) {
        return switch (text) {
            case "null" -> null;
            case "true", "false" -> Boolean.valueOf(text);
            default -> text.endsWith("i") ? (Object) Integer.valueOf(text.substring(0, text.length() - 1)) : Long.valueOf(text);
        };
    }

    /** Does what a run did to an entry, and gives it its time to live in milliseconds. Returns whether the entry is gone because that time is 0. */
    private boolean commit(String key, String effect, Long before, Long after, long time) throws IOException {
        boolean isGone = time == 0 && !effect.equals("delete");
        if (effect.equals("delete") || isGone) {
            own.ask("DEL", key);
        } else if (effect.equals("put")) {
            Object[] plain = {"SET", key, after}, timed = {"SET", key, after, "PX", time}, kept = {"SET", key, after, "KEEPTTL"};
            own.ask(time > 0 ? timed : time == -1 ? kept : plain);
        } else if (before != null && time > 0) {
            own.ask("PEXPIRE", key, time);
        } else if (before != null && time == -2) {
            own.ask("PERSIST", key);
        }
        return isGone;
    }

    @Override public void close() throws IOException {
        listener.close();
        hold(false);
        own.close();
        pipes.forEach(Pipe::close);
    }
}
