import java.net.InetSocketAddress;
import java.net.StandardProtocolFamily;
import java.net.StandardSocketOptions;
import java.net.URI;
import java.net.UnixDomainSocketAddress;
import java.nio.ByteBuffer;
import java.nio.channels.SocketChannel;
import java.nio.charset.StandardCharsets;
import java.util.concurrent.ThreadLocalRandom;
import java.util.concurrent.atomic.AtomicLong;
import javax.cache.Cache;
import javax.cache.Caching;
import javax.cache.configuration.MutableConfiguration;

/**
 * Measures how many calls a second the threads of one JVM make. Each call adds 1 to one of 1,024 keys.
 *
 * Load THREADS SECONDS jentry URI measures the provider. Load THREADS SECONDS incrby|script PLACE measures Redis at a unix
 * socket or at HOST:PORT, with a connection for each thread.
 */
public class Load {
    private static final int KEYS = 1024;
    private static final String SCRIPT = "local v = (tonumber(redis.call('get', KEYS[1])) or 0) + ARGV[1]; redis.call('set', KEYS[1], v); return v";

    /** One call on a key. */
    interface Call {
        void on(long key) throws Exception;
    }

    /** Makes the calls of one thread. */
    interface Maker {
        Call make() throws Exception;
    }

    public static void main(String[] words) throws Exception {
        int threads = Integer.parseInt(words[0]);
        double seconds = Double.parseDouble(words[1]);
        Maker maker = words[2].equals("jentry") ? provider(words[3]) : () -> redis(words[3], words[2].equals("script"));
        run(maker, threads, Math.min(1, seconds));
        System.out.printf("%.0f%n", run(maker, threads, seconds) / seconds);
        System.exit(0);
    }

    private static Maker provider(String uri) {
        Cache<Long, Long> cache = Caching.getCachingProvider().getCacheManager(URI.create(uri), null)
            .createCache("load", new MutableConfiguration<Long, Long>().setTypes(Long.class, Long.class));
        Adds adds = new Adds();
        return () -> key -> cache.invoke(key, adds, 1L);
    }

    private static SocketChannel connect(String place) throws Exception {
        int colon = place.indexOf(':');
        if (colon < 0) {
            SocketChannel line = SocketChannel.open(StandardProtocolFamily.UNIX);
            line.connect(UnixDomainSocketAddress.of(place));
            return line;
        }
        SocketChannel line = SocketChannel.open(new InetSocketAddress(place.substring(0, colon), Integer.parseInt(place.substring(colon + 1))));
        line.setOption(StandardSocketOptions.TCP_NODELAY, true);
        return line;
    }

    private static Call redis(String socket, boolean byScript) throws Exception {
        SocketChannel line = connect(socket);
        ByteBuffer in = ByteBuffer.allocate(1024);
        if (!byScript) {
            return key -> ask(line, in, "INCRBY", "k" + key, "1");
        }
        String sum = ask(line, in, "SCRIPT", "LOAD", SCRIPT).split("\r\n")[1];
        return key -> ask(line, in, "EVALSHA", sum, "1", "k" + key, "1");
    }

    /** Sends a command and returns its reply: one line, or two lines for a string of 40 characters. */
    private static String ask(SocketChannel line, ByteBuffer in, String... words) throws Exception {
        StringBuilder text = new StringBuilder("*" + words.length + "\r\n");
        for (String word : words) {
            text.append('$').append(word.length()).append("\r\n").append(word).append("\r\n");
        }
        ByteBuffer out = ByteBuffer.wrap(text.toString().getBytes(StandardCharsets.US_ASCII));
        while (out.hasRemaining()) {
            line.write(out);
        }
        in.clear();
        do {
            line.read(in);
        } while (in.get(in.position() - 1) != '\n' || in.get(0) == '$' && in.position() < 40);
        String reply = new String(in.array(), 0, in.position(), StandardCharsets.US_ASCII);
        if (reply.charAt(0) == '-') {
            throw new IllegalStateException(reply);
        }
        return reply;
    }

    /** Runs the calls on all threads for this time, and returns their number. */
    private static long run(Maker maker, int threads, double seconds) throws Exception {
        AtomicLong made = new AtomicLong();
        Thread[] team = new Thread[threads];
        for (int place = 0; place < threads; place++) {
            Call call = maker.make();
            team[place] = new Thread(() -> made.addAndGet(calls(call, seconds)));
        }
        for (Thread thread : team) {
            thread.start();
        }
        for (Thread thread : team) {
            thread.join();
        }
        return made.get();
    }

    private static long calls(Call call, double seconds) {
        long count = 0;
        long end = System.nanoTime() + (long) (seconds * 1e9);
        try {
            while (System.nanoTime() < end) {
                call.on(ThreadLocalRandom.current().nextLong(KEYS));
                count++;
            }
        } catch (Exception e) {
            throw new IllegalStateException(e);
        }
        return count;
    }
}
