package jentry.jcache.redis;

import static org.junit.jupiter.api.Assertions.assertTrue;

import java.io.IOException;
import java.io.UncheckedIOException;
import java.net.ServerSocket;
import java.net.URI;
import java.nio.file.Files;
import java.nio.file.Path;
import java.util.ArrayList;
import java.util.List;
import java.util.Properties;
import java.util.concurrent.TimeUnit;
import javax.cache.CacheManager;
import javax.cache.Caching;
import jentry.jcache.Temporary;
import jentry.jcache.impl.Options;

/** A redis-server for one test, with the module, on a free port. */
public final class RedisServer implements AutoCloseable {
    private static final String MODULE = System.getProperty("jentry.test.module", "");
    private static final long START_MILLIS = Long.getLong("jentry.test.patience", 300_000);

    final int port;
    final Path folder = Temporary.folder();
    private final List<String> words = new ArrayList<>();
    private Process process;

    /** Starts a server with additional command line arguments. */
    public RedisServer(String... more) {
        this(true, more);
    }

    RedisServer(boolean hasModule, String... more) {
        port = freePort();
        words.addAll(List.of("redis-server", "--port", "" + port, "--save", "", "--bind", "127.0.0.1", "--dir",
            folder.toString(), "--logfile", "log", "--repl-diskless-sync-delay", "0"));
        if (hasModule) {
            words.addAll(List.of("--loadmodule", MODULE));
        }
        words.addAll(List.of(more));
        start();
    }

    /** Returns a free port such that the port of the cluster bus, 10,000 higher, is free too. */
    static int freePort() {
        for (int tries = 0; tries < 100; tries++) {
            try (ServerSocket one = new ServerSocket(0)) {
                int port = one.getLocalPort();
                if (port > 20_000 && port < 55_000) {
                    new ServerSocket(port + 10_000).close();
                    return port;
                }
            } catch (IOException e) {
                // The other port is in use.
            }
        }
        throw new IllegalStateException("no free port");
    }

    void start() {
        try {
            ProcessBuilder builder = new ProcessBuilder(words).redirectErrorStream(true);
            process = builder.redirectOutput(folder.resolve("out").toFile()).start();
            long end = System.nanoTime() + TimeUnit.MILLISECONDS.toNanos(START_MILLIS);
            while (!isUp()) {
                assertTrue(process.isAlive() && System.nanoTime() < end, this::log);
                Thread.sleep(10);
            }
        } catch (IOException e) {
            throw new UncheckedIOException(e);
        } catch (InterruptedException e) {
            throw new IllegalStateException(e);
        }
    }

    private boolean isUp() throws IOException {
        String log = Files.exists(folder.resolve("log")) ? Files.readString(folder.resolve("log")) : "";
        return log.contains("Ready to accept connections");
    }

    private String log() {
        try {
            return Files.readString(folder.resolve(Files.exists(folder.resolve("log")) ? "log" : "out"));
        } catch (IOException e) {
            return e.getMessage();
        }
    }

    /** Kills the process, like a crash. */
    void kill() {
        process.destroyForcibly();
        try {
            process.waitFor();
        } catch (InterruptedException e) {
            throw new IllegalStateException(e);
        }
    }

    /** Returns the process id, for signals. */
    long pid() {
        return process.pid();
    }

    public URI uri(String name) {
        return URI.create("jentry+redis://127.0.0.1:" + port + "/" + name);
    }

    /** Creates a separate manager with these properties: names and values alternate. */
    public CacheManager manager(String name, String... properties) {
        return manager(uri(name), properties);
    }

    static CacheManager manager(URI uri, String... words) {
        Properties properties = new Properties();
        for (int i = 0; i < words.length; i += 2) {
            properties.setProperty(words[i], words[i + 1]);
        }
        return Caching.getCachingProvider().getCacheManager(uri, new ClassLoader() { }, properties);
    }

    /** Sends one command on a separate connection, and returns the reply. */
    Object ask(Object... command) {
        try {
            RedisSocket socket = new RedisSocket("127.0.0.1:" + port, new Options(uri(""), new Properties()));
            try {
                return socket.ask(command);
            } finally {
                socket.close();
            }
        } catch (IOException e) {
            throw new UncheckedIOException(e);
        }
    }

    /** Sends one command and returns the reply as text. */
    String text(Object... command) {
        Object reply = ask(command);
        return reply instanceof byte[] ? Replies.text(reply) : String.valueOf(reply);
    }

    /** Returns a number that INFO reports. */
    long number(String section, String field) {
        return text("INFO", section).lines().filter(it -> it.startsWith(field + ":"))
            .mapToLong(it -> Long.parseLong(it.substring(field.length() + 1).trim())).findFirst().orElseThrow();
    }

    @Override public void close() {
        kill();
        Temporary.delete(folder);
        Temporary.forget(folder);
    }
}
