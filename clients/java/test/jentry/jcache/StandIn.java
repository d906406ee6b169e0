package jentry.jcache;

import java.io.ByteArrayOutputStream;
import java.io.DataInputStream;
import java.io.IOException;
import java.io.OutputStream;
import java.io.UncheckedIOException;
import java.net.InetAddress;
import java.net.InetSocketAddress;
import java.net.SocketAddress;
import java.net.StandardProtocolFamily;
import java.net.URI;
import java.net.UnixDomainSocketAddress;
import java.nio.ByteBuffer;
import java.nio.channels.Channels;
import java.nio.channels.ServerSocketChannel;
import java.nio.channels.SocketChannel;
import java.nio.file.Path;
import java.util.ArrayList;
import java.util.List;
import java.util.Map;
import java.util.Properties;
import java.util.Set;
import java.util.concurrent.ConcurrentHashMap;
import java.util.concurrent.atomic.AtomicInteger;
import javax.cache.Cache;
import javax.cache.CacheManager;
import javax.cache.Caching;
import jentry.jcache.stream.Wire;

/**
 * Speaks the server's protocol without a machine, for behaviour that the real server can't be made to show. Every class is accepted and adds 1 to its entry. A
 * script returns the reply to each round; its bytes are sent unchanged, and null closes the connection.
 */
public final class StandIn implements AutoCloseable {
    public static final byte[] END = frame(9);

    interface Script {
        byte[] answer(StandIn it, int round, List<byte[]> requests) throws Exception;
    }

    private final ServerSocketChannel listener;
    private final Script script;
    private final Map<Long, Long> entries = new ConcurrentHashMap<>();
    private final AtomicInteger classes = new AtomicInteger();
    private final AtomicInteger rounds = new AtomicInteger();
    private final AtomicInteger connections = new AtomicInteger();
    private final Set<SocketChannel> open = ConcurrentHashMap.newKeySet();
    private final URI uri;
    private CacheManager manager;

    private StandIn(ServerSocketChannel listener, URI uri, Script script) {
        this.listener = listener;
        this.uri = uri;
        this.script = script;
        start(this::accept);
    }

    static StandIn unix(Script script) throws IOException {
        Path path = Temporary.folder().resolve("socket");
        ServerSocketChannel listener = ServerSocketChannel.open(StandardProtocolFamily.UNIX);
        listener.bind(UnixDomainSocketAddress.of(path));
        return new StandIn(listener, URI.create("jentry+unix:" + path), script);
    }

    static StandIn tcp(Script script) throws IOException {
        ServerSocketChannel listener = ServerSocketChannel.open();
        listener.bind(new InetSocketAddress(InetAddress.getLoopbackAddress(), 0));
        SocketAddress at = listener.getLocalAddress();
        return new StandIn(listener, URI.create("jentry+tcp://127.0.0.1:" + ((InetSocketAddress) at).getPort()), script);
    }

    /** Creates a cache on a connection to this server, with these properties: names and values alternate. */
    Cache<Long, Long> cache(String... properties) {
        manager = Caching.getCachingProvider().getCacheManager(uri, null, properties(properties));
        return manager.createCache("stand-in", Server.types());
    }

    /** Creates another manager of this server. */
    CacheManager manager() {
        return Caching.getCachingProvider().getCacheManager(uri, new ClassLoader() { });
    }

    /** Returns properties from names and values that alternate. */
    static Properties properties(String... words) {
        Properties all = new Properties();
        for (int i = 0; i < words.length; i += 2) {
            all.setProperty(words[i], words[i + 1]);
        }
        return all;
    }

    private static void start(Runnable does) {
        Thread thread = new Thread(does);
        thread.setDaemon(true);
        thread.start();
    }

    private void accept() {
        try {
            while (true) {
                SocketChannel connection = listener.accept();
                start(() -> serve(connection));
            }
        } catch (IOException e) {
            // The server was closed.
        }
    }

    /** Returns the number of open connections. */
    int connections() {
        return connections.get();
    }

    /** Closes all connections, and goes on to accept new ones. */
    void cut() throws IOException {
        for (SocketChannel connection : open) {
            connection.close();
        }
    }

    /** Accepts no connection any more. */
    void stop() throws IOException {
        listener.close();
    }

    private void serve(SocketChannel connection) {
        connections.incrementAndGet();
        open.add(connection);
        try (connection) {
            DataInputStream in = new DataInputStream(Channels.newInputStream(connection));
            OutputStream out = Channels.newOutputStream(connection);
            while (true) {
                List<byte[]> requests = new ArrayList<>();
                for (byte[] text = in.readNBytes(in.readInt()); text[0] != Wire.END; text = in.readNBytes(in.readInt())) {
                    requests.add(text);
                }
                byte[] told = script.answer(this, rounds.incrementAndGet(), requests);
                if (told == null) {
                    return;
                }
                out.write(told);
            }
        } catch (Exception e) {
            // The client disconnected, or the test has ended.
        } finally {
            open.remove(connection);
            connections.decrementAndGet();
        }
    }

    /** Returns the replies to these requests, without the end of the round. */
    byte[] replies(List<byte[]> requests) {
        byte[][] frames = requests.stream().map(it -> frame(reply(ByteBuffer.wrap(it)))).toArray(byte[][]::new);
        return join(frames);
    }

    /** Returns the replies of a correct server. */
    byte[] right(List<byte[]> requests) {
        return join(replies(requests), END);
    }

    private byte[] reply(ByteBuffer text) {
        switch (text.get()) {
            case Wire.DEFINE: return bytes(ByteBuffer.allocate(13).put((byte) 1).putInt(classes.getAndIncrement()).putInt(14).putInt(0));
            case Wire.PUT: entries.put(text.getLong(), text.getLong()); return new byte[] {3};
            case Wire.GET: return join(new byte[] {4}, argument(entries.get(text.getLong())));
            case Wire.REMOVE: return new byte[] {5, (byte) (entries.remove(text.getLong()) == null ? 0 : 1)};
            case Wire.CONTAINS: return new byte[] {5, (byte) (entries.containsKey(text.getLong()) ? 1 : 0)};
            case Wire.INVOKE: return join(new byte[] {6, 0}, argument(entries.merge(text.getLong(5), 1L, Long::sum)));
            default: return results(text);
        }
    }

    private byte[] results(ByteBuffer text) {
        int count = text.getShort(5);
        byte[] told = bytes(ByteBuffer.allocate(3).put((byte) 7).putShort((short) count));
        for (int i = 0; i < count; i++) {
            long key = text.getLong(7 + 8 * i);
            told = join(told, bytes(ByteBuffer.allocate(9).putLong(key)), argument(entries.merge(key, 1L, Long::sum)));
        }
        return told;
    }

    static byte[] bytes(ByteBuffer text) {
        return text.array();
    }

    private static byte[] argument(Long value) {
        return value == null ? new byte[1] : bytes(ByteBuffer.allocate(9).put((byte) 1).putLong(value));
    }

    /** Returns a frame of these bytes: the kind, then the body. */
    public static byte[] frame(int... text) {
        byte[] bytes = new byte[text.length];
        for (int i = 0; i < text.length; i++) {
            bytes[i] = (byte) text[i];
        }
        return frame(bytes);
    }

    private static byte[] frame(byte[] text) {
        return join(bytes(ByteBuffer.allocate(4).putInt(text.length)), text);
    }

    public static byte[] join(byte[]... parts) {
        ByteArrayOutputStream out = new ByteArrayOutputStream();
        for (byte[] part : parts) {
            out.writeBytes(part);
        }
        return out.toByteArray();
    }

    @Override public void close() {
        try {
            listener.close();
        } catch (IOException e) {
            throw new UncheckedIOException(e);
        }
        if (manager != null) {
            manager.close();
        }
    }
}
