package jentry.jcache.stream;

import java.io.IOException;
import java.net.InetAddress;
import java.net.URI;
import java.nio.file.Files;
import java.nio.file.Path;
import java.util.Map;
import java.util.concurrent.ConcurrentHashMap;
import javax.cache.CacheException;
import jentry.jcache.impl.Options;
import jentry.jcache.store.Store;
import jentry.jcache.store.StoreFactory;

/**
 * Stores on streams of {@code jentry serve}: each has its own child process or connection.
 *
 * <p>A front has one cache, and a request doesn't carry a cache's name, so two names on one front would be one cache.
 * This JVM takes the first name that it uses there. It refuses all others for as long as it runs, because the entries
 * of the first one stay in the front.
 */
public final class StreamStores implements StoreFactory {
    private static final Map<String, String> NAMES = new ConcurrentHashMap<>();

    private final Options options;

    /** Creates a factory for the servers that the options name. */
    public StreamStores(Options options) {
        this.options = options;
    }

    @Override public Store open(String name) {
        try {
            if (!options.isFront()) {
                return store();
            }
            String front = place();
            check(NAMES.getOrDefault(front, name), name);
            Store store = store();
            String first = NAMES.computeIfAbsent(front, it -> name);
            if (!first.equals(name)) {
                store.close();
            }
            check(first, name);
            return store;
        } catch (IOException e) {
            throw new CacheException("there is no stream to " + options.uri() + ": " + e.getMessage(), e);
        }
    }

    private Store store() throws IOException {
        KnownKeys keys = options.isFront() ? null : new KnownKeys();
        return new StreamStore(new Sessions(this::connect, options.uri().toString(), keys), keys);
    }

    private Line connect() throws IOException {
        return new Line(transport(), options.queue(), options.timeoutMillis());
    }

    private void check(String first, String name) {
        if (!first.equals(name)) {
            throw new CacheException("the front at " + options.uri() + " has one cache, which this JVM calls " + first
                + ", so the entries of " + name + " would be the same ones; start a front for each cache, or use "
                + "child processes (jentry:default) or Redis (jentry+redis://HOST:PORT)");
        }
    }

    /** Returns the address of the front in one form, whichever way the URI writes it. */
    private String place() throws IOException {
        URI uri = options.uri();
        if (options.isTcp()) {
            InetAddress host = InetAddress.getByName(uri.getHost());
            return (host.isLoopbackAddress() ? "localhost" : host.getHostAddress()) + ":" + uri.getPort();
        }
        Path path = Path.of(uri.getSchemeSpecificPart());
        return (Files.exists(path) ? path.toRealPath() : path.normalize()).toString();
    }

    private Transport transport() throws IOException {
        URI uri = options.uri();
        if (options.isTcp()) {
            return ChannelTransport.tcp(uri.getHost(), uri.getPort());
        }
        return options.isUnix() ? ChannelTransport.unix(Path.of(uri.getSchemeSpecificPart()))
            : new ChildTransport(options.command());
    }

    /** Does nothing: the stores share nothing. */
    @Override public void close() { }
}
