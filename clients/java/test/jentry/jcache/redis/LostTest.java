package jentry.jcache.redis;

import static org.junit.jupiter.api.Assertions.assertEquals;
import static org.junit.jupiter.api.Assertions.assertThrows;
import static org.junit.jupiter.api.Assertions.assertTrue;

import java.io.IOException;
import java.net.ServerSocket;
import java.net.Socket;
import java.net.URI;
import java.nio.charset.StandardCharsets;
import java.util.List;
import java.util.Map;
import java.util.concurrent.CompletableFuture;
import java.util.concurrent.CompletionException;
import java.util.concurrent.RejectedExecutionException;
import java.util.concurrent.atomic.AtomicLong;
import javax.cache.Cache;
import javax.cache.CacheException;
import javax.cache.CacheManager;
import jentry.jcache.CallNotSentException;
import jentry.jcache.CallOutcomeUnknownException;
import jentry.jcache.JentryCache;
import jentry.jcache.Renewing;
import jentry.jcache.Team;
import org.junit.jupiter.api.Test;

/** Tests what a caller gets if a server ends, pauses, has no module, or replies wrongly. */
class LostTest extends WithRedis {
    private static final int CALLS = 100;
    private static final long MOST_TIMEOUT = 20_000;

    @Test void aServerThatIsNotThere() {
        try (CacheManager manager = RedisServer.manager(URI.create("jentry+redis://127.0.0.1:1/"))) {
            String message = assertThrows(CacheException.class, () -> manager.createCache("a", types())).getMessage();
            assertTrue(message.contains("there is no Redis at jentry+redis://127.0.0.1:1/"), message);
        }
    }

    @Test void aServerWithoutTheModule() {
        CacheManager manager = manager(open(new RedisServer(false)));
        String message = assertThrows(CacheException.class, () -> manager.createCache("a", types())).getMessage();
        assertTrue(message.contains("no command JENTRY.APPLY: load the module"), message);
    }

    /** Compares the callers' counts of done and unknown calls with the sum that the server has afterwards. */
    @Test void aServerThatIsKilledAndStartedAgain() throws Exception {
        RedisServer server = open(new RedisServer("--appendonly", "yes", "--appendfsync", "always"));
        Cache<Long, Long> cache = cache(server);
        AtomicLong done = new AtomicLong(), unknown = new AtomicLong(), unsent = new AtomicLong();
        Team team = Team.of(8, t -> {
            for (int i = 0; i < CALLS; i++) {
                try {
                    cache.invoke(1L, new Renewing.Add(), 1L);
                    done.incrementAndGet();
                } catch (CallOutcomeUnknownException e) {
                    unknown.incrementAndGet();
                } catch (CallNotSentException e) {
                    unsent.incrementAndGet();
                    Thread.sleep(50);
                }
            }
        });
        RedisNodes.await(() -> done.get() > CALLS, "calls that aren't made");
        server.kill();
        server.start();
        team.join();
        long sum = cache.get(1L);
        assertEquals(8 * CALLS, done.get() + unknown.get() + unsent.get());
        assertTrue(done.get() <= sum && sum <= done.get() + unknown.get(), done + " done, " + unknown + " unknown, sum " + sum);
        assertTrue(unknown.get() <= 8, "one call of each thread was out");
    }

    /** Where the machine is too busy for the other calls within the timeout, the test begins again with twice the time. */
    @Test void aPauseLongerThanTheTimeout() {
        RedisServer server = open(new RedisServer());
        for (long millis = 300; !isOnlyThePauseLongerThan(server, millis); millis *= 2) {
            assertTrue(millis < MOST_TIMEOUT, "the machine is too busy");
        }
    }

    /** Returns false if a call got no reply in time although the server wasn't paused. */
    private static boolean isOnlyThePauseLongerThan(RedisServer server, long millis) {
        String late = "no reply within " + millis + " ms";
        try (CacheManager manager = server.manager("app", "jentry.timeout", "" + millis)) {
            Cache<Long, Long> cache = manager.createCache("test", types());
            cache.put(1L, 1L);
            server.ask("CLIENT", "PAUSE", 100_000, "WRITE");
            String message = assertThrows(CallOutcomeUnknownException.class, () -> cache.put(1L, 2L)).getMessage();
            server.ask("CLIENT", "UNPAUSE");
            assertTrue(message.contains(late), message);
            assertTrue(List.of(1L, 2L).contains(cache.get(1L)));
            cache.put(1L, 3L);
            assertEquals(3L, cache.get(1L));
            return true;
        } catch (CallOutcomeUnknownException e) {
            assertTrue(e.getMessage().contains(late), e.getMessage());
            return false;
        }
    }

    @Test void aReadIsMadeOnceMore() {
        RedisServer server = open(new RedisServer());
        Cache<Long, Long> cache = cache(server);
        cache.put(1L, 5L);
        server.ask("CLIENT", "KILL", "TYPE", "normal", "SKIPME", "yes");
        assertEquals(5L, cache.get(1L));
        server.ask("CLIENT", "KILL", "TYPE", "normal", "SKIPME", "yes");
        assertEquals(Map.of(1L, 5L), cache.getAll(java.util.Set.of(1L, 2L)));
    }

    @Test void aClassThatTheServerForgotIsSentAgain() {
        RedisServer server = open(new RedisServer());
        Cache<Long, Long> cache = cache(server);
        cache.invoke(1L, new Renewing.Add(), 1L);
        for (Object it : (Object[]) server.ask("JENTRY.LIST")) {
            server.ask("JENTRY.FORGET", ((Object[]) it)[0]);
        }
        assertEquals(2L, cache.invoke(1L, new Renewing.Add(), 1L));
        for (Object it : (Object[]) server.ask("JENTRY.LIST")) {
            server.ask("JENTRY.FORGET", ((Object[]) it)[0]);
        }
        assertEquals(3L, cache.invokeAll(java.util.Set.of(1L, 2L), new Renewing.Add(), 1L).get(1L).get());
        for (Object it : (Object[]) server.ask("JENTRY.LIST")) {
            server.ask("JENTRY.FORGET", ((Object[]) it)[0]);
        }
        assertEquals(4L, cache.unwrap(JentryCache.class).invokeAsync(1L, new Renewing.Add(), 1L).join());
    }

    @Test void asynchronousCallsAreManyAndLimited() throws Exception {
        RedisServer server = open(new RedisServer());
        JentryCache cache = cache(server, "jentry.queue", "50").unwrap(JentryCache.class);
        cache.invoke(1L, new Renewing.Add(), 0L);
        server.ask("CLIENT", "PAUSE", 100_000, "WRITE");
        List<CompletableFuture<Long>> all = new java.util.ArrayList<>();
        for (int i = 0; i < 50; i++) {
            all.add(cache.invokeAsync(1L, new Renewing.Add(), 1L));
        }
        assertThrows(RejectedExecutionException.class, () -> cache.invokeAsync(1L, new Renewing.Add(), 1L));
        server.ask("CLIENT", "UNPAUSE");
        all.forEach(CompletableFuture::join);
        assertEquals(50L, cache.get(1L));
        server.kill();
        Throwable cause = assertThrows(CompletionException.class,
            () -> cache.invokeAsync(1L, new Renewing.Add(), 1L).join()).getCause();
        assertTrue(cause instanceof CallNotSentException || cause instanceof CallOutcomeUnknownException, cause.toString());
    }

    /** A stand-in that replies correctly to the first calls, and with these bytes to all others. */
    private static final class StandIn implements AutoCloseable {
        private final ServerSocket listener = new ServerSocket(0);
        private final byte[] wrong;

        StandIn(String wrong) throws IOException {
            this.wrong = wrong.getBytes(StandardCharsets.ISO_8859_1);
            Thread thread = new Thread(this::accept);
            thread.setDaemon(true);
            thread.start();
        }

        private void accept() {
            while (true) {
                try (Socket socket = listener.accept()) {
                    Resp.In in = new Resp.In(socket.getInputStream());
                    while (true) {
                        String command = Replies.text(((Object[]) in.reply())[0]);
                        byte[] answer = command.equals("CLUSTER") ? "-ERR This instance has cluster support disabled\r\n".getBytes()
                            : command.equals("COMMAND") ? "*1\r\n+there\r\n".getBytes() : wrong;
                        if (answer.length == 0) {
                            break;
                        }
                        socket.getOutputStream().write(answer);
                    }
                } catch (IOException | RuntimeException e) {
                    if (listener.isClosed()) {
                        return;
                    }
                }
            }
        }

        @Override public void close() throws IOException {
            listener.close();
        }
    }

    @Test void repliesThatAreNone() throws IOException {
        for (String wrong : List.of("?x\r\n", ":x\r\n", "$3\r\nabcde", "$99999999999\r\n", "*9999999\r\n", "+OK\rx", "")) {
            try (StandIn server = new StandIn(wrong);
                CacheManager manager = RedisServer.manager(URI.create("jentry+redis://127.0.0.1:" + server.listener.getLocalPort()))) {
                Cache<Long, Long> cache = manager.createCache("a", types());
                assertThrows(CallOutcomeUnknownException.class, () -> cache.put(1L, 1L), wrong);
                assertThrows(CallOutcomeUnknownException.class, () -> cache.get(1L), wrong);
            }
        }
    }
}
