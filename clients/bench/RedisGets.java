import java.io.BufferedInputStream;
import java.io.IOException;
import java.io.InputStream;
import java.io.OutputStream;
import java.net.Socket;
import java.net.URI;
import java.nio.charset.StandardCharsets;
import java.util.ArrayDeque;
import java.util.ArrayList;
import java.util.Arrays;
import java.util.Collections;
import java.util.List;
import java.util.concurrent.CountDownLatch;
import java.util.concurrent.Semaphore;
import javax.cache.Cache;
import javax.cache.CacheManager;
import javax.cache.Caching;
import javax.cache.configuration.MutableConfiguration;

/**
 * Gets by the JCache provider over Redis, beside a client of bare sockets, by turns: RedisGets PORT MILLIS TURNS, as clients/bench/gets calls it. The bare client
 * has one connection. Its threads write their commands one after the other without waiting for each other's replies, which a thread reads; where one thread
 * calls, that one reads its reply itself. Which client is first changes from turn to turn. Prints the calls a second of each turn, the medians with the least
 * and the greatest, and the quotient of the medians.
 */
public final class RedisGets {
    private static final int KEYS = 1_000;

    interface Client {
        void get(long key) throws Exception;
    }

    /** A client of a bare socket. */
    private static final class Bare implements Client {
        private final InputStream in;
        private final OutputStream out;
        private final boolean isAlone;
        private final ArrayDeque<Semaphore> waiting = new ArrayDeque<>();

        Bare(int port, boolean isAlone) throws IOException {
            Socket socket = new Socket("127.0.0.1", port);
            socket.setTcpNoDelay(true);
            in = new BufferedInputStream(socket.getInputStream(), 1 << 16);
            out = socket.getOutputStream();
            this.isAlone = isAlone;
            if (!isAlone) {
                Thread reader = new Thread(this::read);
                reader.setDaemon(true);
                reader.start();
            }
        }

        private void reply() throws IOException {
            int length = 0;
            for (int c = in.read(); c != '\n'; c = in.read()) {
                length = c >= '0' && c <= '9' ? 10 * length + c - '0' : length;
            }
            in.skipNBytes(length + 2);
        }

        private void read() {
            try {
                while (true) {
                    reply();
                    Semaphore next;
                    synchronized (waiting) {
                        next = waiting.remove();
                    }
                    next.release();
                }
            } catch (IOException e) {
                throw new IllegalStateException(e);
            }
        }

        @Override public void get(long key) throws Exception {
            String name = "gets:" + key;
            byte[] command = ("*2\r\n$3\r\nGET\r\n$" + name.length() + "\r\n" + name + "\r\n").getBytes(StandardCharsets.US_ASCII);
            if (isAlone) {
                out.write(command);
                reply();
                return;
            }
            Semaphore own = new Semaphore(0);
            synchronized (out) {
                synchronized (waiting) {
                    waiting.add(own);
                }
                out.write(command);
            }
            own.acquire();
        }
    }

    private static double perSecond(Client client, int threads, long millis) throws InterruptedException {
        long[] counts = new long[threads];
        CountDownLatch go = new CountDownLatch(1);
        long[] end = new long[1];
        List<Thread> all = new ArrayList<>();
        for (int t = 0; t < threads; t++) {
            int own = t;
            Thread thread = new Thread(() -> {
                try {
                    go.await();
                    for (long n = own; System.nanoTime() < end[0]; n++) {
                        client.get(n % KEYS);
                        counts[own]++;
                    }
                } catch (Exception e) {
                    throw new IllegalStateException(e);
                }
            });
            all.add(thread);
            thread.start();
        }
        long begin = System.nanoTime();
        end[0] = begin + millis * 1_000_000;
        go.countDown();
        for (Thread thread : all) {
            thread.join();
        }
        return Arrays.stream(counts).sum() * 1e9 / (System.nanoTime() - begin);
    }

    private static double median(List<Double> of) {
        return of.stream().sorted().skip(of.size() / 2).findFirst().orElseThrow();
    }

    private static String figures(List<Double> of) {
        return String.format("%,.0f (%,.0f to %,.0f)", median(of), Collections.min(of), Collections.max(of));
    }

    /** Measures both clients by turns. The turn before the first one isn't counted. */
    private static void compare(Client provider, Client bare, int threads, long millis, int turns) throws InterruptedException {
        List<Double> ours = new ArrayList<>(), others = new ArrayList<>();
        for (int turn = -1; turn < turns; turn++) {
            boolean isFirst = turn % 2 == 0;
            double before = perSecond(isFirst ? provider : bare, threads, millis), then = perSecond(isFirst ? bare : provider, threads, millis);
            if (turn >= 0) {
                ours.add(isFirst ? before : then);
                others.add(isFirst ? then : before);
                System.out.printf("%d threads: provider %,.0f a second, bare %,.0f%n", threads, ours.get(turn), others.get(turn));
            }
        }
        System.out.printf("%d threads, medians (least to greatest): provider %s, bare %s, quotient %.2f%n", threads, figures(ours), figures(others),
            median(ours) / median(others));
    }

    public static void main(String[] words) throws Exception {
        int port = Integer.parseInt(words[0]), turns = Integer.parseInt(words[2]);
        long millis = Long.parseLong(words[1]);
        try (CacheManager manager = Caching.getCachingProvider().getCacheManager(URI.create("jentry+redis://127.0.0.1:" + port), null)) {
            Cache<Long, Long> cache = manager.createCache("gets", new MutableConfiguration<Long, Long>().setTypes(Long.class, Long.class));
            for (long key = 0; key < KEYS; key++) {
                cache.put(key, key);
            }
            for (int threads : new int[] {1, 8, 64}) {
                compare(cache::get, new Bare(port, threads == 1), threads, millis, turns);
            }
        }
    }
}
