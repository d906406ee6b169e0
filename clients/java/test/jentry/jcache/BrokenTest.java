package jentry.jcache;

import static org.junit.jupiter.api.Assertions.assertEquals;
import static org.junit.jupiter.api.Assertions.assertFalse;
import static org.junit.jupiter.api.Assertions.assertThrows;
import static org.junit.jupiter.api.Assertions.assertTrue;

import java.io.IOException;
import java.net.URI;
import java.nio.file.Files;
import java.nio.file.Path;
import java.nio.file.attribute.PosixFilePermissions;
import java.util.Map;
import java.util.Set;
import java.util.concurrent.CompletableFuture;
import java.util.concurrent.CompletionException;
import java.util.concurrent.CountDownLatch;
import java.util.concurrent.RejectedExecutionException;
import java.util.concurrent.TimeUnit;
import java.util.concurrent.atomic.AtomicInteger;
import java.util.concurrent.atomic.AtomicLong;
import java.util.function.Consumer;
import javax.cache.Cache;
import javax.cache.CacheException;
import javax.cache.CacheManager;
import javax.cache.Caching;
import javax.cache.integration.CacheLoaderException;
import javax.cache.processor.EntryProcessorException;
import javax.cache.processor.EntryProcessorResult;
import jentry.jcache.stream.StreamStore;
import jentry.jcache.stream.Wire;
import org.junit.jupiter.api.Test;
import org.junit.jupiter.api.Timeout;
import org.junit.jupiter.api.function.Executable;

/** Tests what a caller gets if the server ends, doesn't reply or replies wrongly, with a stand-in for the server. */
@Timeout(600)
class BrokenTest {
    private static final String NOT_KNOWN = "whether this call has run is not known";
    private static final String NOT_SENT = "this call was not sent";

    private static String failure(Runnable call) {
        return assertThrows(CacheException.class, call::run).getMessage();
    }

    /** A script that replies correctly, but for one round after the first ones, whose reply has these bytes. */
    private static StandIn.Script after(int rounds, byte[] wrong) {
        return (it, round, requests) -> round == rounds + 1 ? wrong : it.right(requests);
    }

    private static void breaks(int goodRounds, byte[] wrong, String words, Consumer<Cache<Long, Long>> call) throws IOException {
        try (StandIn server = StandIn.unix(after(goodRounds, wrong))) {
            Cache<Long, Long> cache = server.cache();
            CacheException e = assertThrows(CacheException.class, () -> call.accept(cache));
            assertTrue(e.getMessage().contains(NOT_KNOWN), e.getMessage());
            assertTrue(e.getCause().getMessage().contains(words), e.getCause().getMessage());
            cache.put(1L, 7L);
            assertEquals(7L, cache.get(1L), "the next call makes a new connection");
            assertFalse(cache.isClosed());
        }
    }

    @Test void anotherKindOfReply() throws IOException {
        byte[] flag = StandIn.join(StandIn.frame(5, 1), StandIn.END);
        byte[] done = StandIn.join(StandIn.frame(3), StandIn.END);
        breaks(0, flag, "a reply of kind 5", it -> it.put(1L, 1L));
        breaks(0, flag, "a reply of kind 5", it -> it.get(1L));
        breaks(0, done, "a reply of kind 3", it -> it.remove(1L));
        breaks(0, done, "a reply of kind 3", it -> it.invoke(1L, new Sample.Key()));
        breaks(1, done, "a reply of kind 3", it -> it.invoke(1L, new Sample.Key()));
        breaks(1, done, "a reply of kind 3", it -> it.invokeAll(Set.of(1L), new Sample.Key()));
        breaks(0, done, "a reply of kind 3", it -> it.getAll(Set.of(1L)));
        breaks(0, StandIn.join(StandIn.frame(4, 2, 0, 0, 0, 1), StandIn.END), "a value of the type Integer", it -> it.get(1L));
        breaks(0, StandIn.join(StandIn.frame(4, 4), StandIn.END), "a value of the type Boolean", it -> it.get(1L));
        breaks(0, StandIn.join(StandIn.frame(4, 3), StandIn.END), "a value of the type Boolean", it -> it.getAll(Set.of(1L)));
        breaks(0, StandIn.join(StandIn.frame(4, 5), StandIn.END), "an argument of kind 5", it -> it.get(1L));
        breaks(0, StandIn.join(StandIn.frame(5, 2), StandIn.END), "a flag of 2", it -> it.containsKey(1L));
        breaks(0, StandIn.join(StandIn.frame(77), StandIn.END), "a reply of kind 77", it -> it.put(1L, 1L));
    }

    @Test void aReplyTooManyOrTooFew() throws IOException {
        breaks(0, StandIn.join(StandIn.frame(3), StandIn.frame(3), StandIn.END), "more replies", it -> it.put(1L, 1L));
        breaks(0, StandIn.END, "before all of its replies", it -> it.put(1L, 1L));
        breaks(0, StandIn.join(StandIn.frame(3), StandIn.END), "before all of its replies", it -> it.putAll(Map.of(1L, 1L, 2L, 2L)));
    }

    @Test void aReplyTooShortOrTooLong() throws IOException {
        breaks(0, StandIn.join(StandIn.frame(4, 1, 0), StandIn.END), "shorter", it -> it.get(1L));
        breaks(0, StandIn.join(StandIn.frame(3, 0), StandIn.END), "longer", it -> it.put(1L, 1L));
    }

    @Test void resultsOfOtherKeys() throws IOException {
        byte[] two = StandIn.join(StandIn.frame(7, 0, 1, 0, 0, 0, 0, 0, 0, 0, 2, 0, 1, 0, 0, 0, 0, 0, 0, 0, 9), StandIn.END);
        breaks(1, two, "the key 2", it -> it.invokeAll(Set.of(1L), new Sample.Key()));
        byte[] twice = StandIn.join(StandIn.frame(7, 0, 2, 0, 0, 0, 0, 0, 0, 0, 2, 1, 1, 0, 0, 0, 0, 0, 0, 0, 2, 1, 1), StandIn.END);
        breaks(1, twice, "the key 2", it -> it.invokeAll(Set.of(2L), new Sample.Key()));
    }

    @Test void aFrameOfOneMegabyteOrOfNoLength() throws IOException {
        breaks(0, StandIn.frame(new int[1 << 20]), "a reply of 1048576 bytes", it -> it.get(1L));
        breaks(0, new byte[] {0, 0, 0, 0}, "a reply of 0 bytes", it -> it.get(1L));
        breaks(0, new byte[] {-1, -1, -1, -1}, "a reply of -1 bytes", it -> it.get(1L));
    }

    private static long[] endInMidRound(boolean tcp) throws Exception {
        AtomicLong ended = new AtomicLong(), last = new AtomicLong();
        StandIn.Script script = (it, round, requests) -> {
            if (round < 200) {
                ended.set(System.nanoTime());
            }
            return round >= 200 ? null : it.right(requests);
        };
        try (StandIn server = tcp ? StandIn.tcp(script) : StandIn.unix(script)) {
            Cache<Long, Long> cache = server.cache();
            AtomicInteger known = new AtomicInteger();
            Team.of(32, t -> {
                String message = failure(() -> {
                    while (true) {
                        cache.put((long) t, 1L);
                    }
                });
                last.accumulateAndGet(System.nanoTime(), Math::max);
                assertTrue(message.contains(NOT_KNOWN) || message.contains(NOT_SENT), message);
                known.addAndGet(message.contains(NOT_KNOWN) ? 1 : 0);
            }).join();
            assertTrue(known.get() > 0);
            assertTrue(failure(() -> cache.get(1L)).contains(NOT_KNOWN));
            Throwable e = assertThrows(CompletionException.class, () -> cache.unwrap(JentryCache.class).invokeAsync(1L, new Sample.Key()).join());
            assertEquals(CallOutcomeUnknownException.class, e.getCause().getClass());
        }
        return new long[] {ended.get(), last.get()};
    }

    @Test void theServersEndFailsEveryCallWithinASecond() throws Exception {
        for (boolean tcp : new boolean[] {false, true}) {
            Soon.within(() -> endInMidRound(tcp));
        }
    }

    @Test void eachCacheHasAConnectionOfItsOwn() throws Exception {
        StandIn.Script script = (it, round, requests) -> it.right(requests);
        for (boolean tcp : new boolean[] {false, true}) {
            try (StandIn server = tcp ? StandIn.tcp(script) : StandIn.unix(script); CacheManager second = server.manager()) {
                Cache<Long, Long> one = server.cache(), other = second.createCache("stand-in", Server.types());
                one.put(1L, 5L);
                assertEquals(5L, other.get(1L));
                assertEquals(2, server.connections());
                one.close();
                for (int i = 0; server.connections() != 1; i++) {
                    assertTrue(i < 30_000, "a connection that stays");
                    Thread.sleep(1);
                }
                assertEquals(5L, other.get(1L));
            }
        }
    }

    @Test void theServersEndFailsAsynchronousCalls() throws IOException {
        try (StandIn server = StandIn.unix((it, round, requests) -> round == 2 ? null : it.right(requests))) {
            JentryCache cache = server.cache().unwrap(JentryCache.class);
            Throwable e = assertThrows(CompletionException.class, () -> cache.invokeAsync(1L, new Sample.Key()).join()).getCause();
            assertEquals(CallOutcomeUnknownException.class, e.getClass());
            assertTrue(e.getMessage().contains(NOT_KNOWN), e.getMessage());
        }
    }

    private static CacheManager child(String script, String... properties) throws IOException {
        Path program = Temporary.folder().resolve("program");
        Files.writeString(program, "#!/bin/sh\n" + script + "\n");
        Files.setPosixFilePermissions(program, PosixFilePermissions.fromString("rwx------"));
        return Caching.getCachingProvider().getCacheManager(URI.create("jentry:" + program), null, StandIn.properties(properties));
    }

    /**
     * Makes calls, each of which ends a new child, until one has told the child's last words, and returns what it said. The client waits a quarter of a second
     * for the words; a busy machine may take longer.
     */
    private static String failureWith(String words, Runnable call) {
        String message = failure(call);
        for (int tries = 1; tries < 100 && !message.contains(words); tries++) {
            message = failure(call);
        }
        assertTrue(message.contains(words), message);
        return message;
    }

    @Test void theLastWordsOfAChild() throws IOException {
        try (CacheManager manager = child("head -c 26 >/dev/null; echo 'serve fault 5 NoMemory' >&2; exit 3")) {
            Cache<Long, Long> cache = manager.createCache("a", Server.types());
            for (String why : new String[] {"the first child", "a new child ends like the first"}) {
                String message = failureWith("serve fault 5 NoMemory", () -> cache.put(1L, 1L));
                assertTrue(message.contains(NOT_KNOWN), why + ": " + message);
            }
        }
    }

    @Test void aChildThatWritesMuchOnStandardErrorIsNotHeldUp() throws IOException {
        try (CacheManager manager = child("head -c 300000 /dev/zero | tr '\\0' 'x' >&2; echo ' the last line' >&2; exit 3")) {
            Cache<Long, Long> cache = manager.createCache("a", Server.types());
            String message = failureWith("xxx the last line", () -> cache.get(1L));
            assertTrue(message.length() < 2_000, message);
        }
    }

    @Test void aProgramThatIsNotThere() {
        CacheManager manager = Caching.getCachingProvider().getCacheManager(URI.create("jentry:/no/such/program"), null, null);
        String message = failure(() -> manager.createCache("a", Server.types()));
        assertTrue(message.contains("/no/such/program"), message);
        manager.close();
    }

    @Test void aRoundThatTakesTooLong() throws Exception {
        CountDownLatch never = new CountDownLatch(1);
        StandIn.Script silent = (it, round, requests) -> {
            never.await();
            return null;
        };
        for (boolean tcp : new boolean[] {false, true}) {
            try (StandIn server = tcp ? StandIn.tcp(silent) : StandIn.unix(silent)) {
                Cache<Long, Long> cache = server.cache("jentry.timeout", "300");
                long from = System.nanoTime();
                Team.of(4, t -> assertTrue(failure(() -> cache.get(1L)).contains("took longer than 300 ms"))).join();
                long millis = TimeUnit.NANOSECONDS.toMillis(System.nanoTime() - from);
                assertTrue(millis >= 300 && millis < 30_000, millis + " ms");
                assertTrue(failure(() -> cache.get(1L)).contains("took longer than 300 ms"), "on a new connection");
            }
        }
        never.countDown();
    }

    private static boolean isAsleep(ProcessHandle it) {
        return it.isAlive() && it.info().commandLine().orElse("").contains("sleep 600");
    }

    @Test void aSilentChildIsEndedByTheTimeout() throws Exception {
        try (CacheManager manager = child("sleep 600", "jentry.timeout", "300")) {
            Cache<Long, Long> cache = manager.createCache("a", Server.types());
            String message = failure(() -> cache.get(1L));
            assertTrue(message.contains("took longer than 300 ms") && message.contains(NOT_KNOWN), message);
            // A process that was killed ends when it gets a processor.
            for (int i = 0; ProcessHandle.current().descendants().anyMatch(BrokenTest::isAsleep); i++) {
                assertTrue(i < 30_000, "a child that sleeps on");
                Thread.sleep(1);
            }
        }
    }

    /** A stand-in that holds each round from the second on until it is released, and a cache on it. */
    private static final class Holding implements AutoCloseable {
        final CountDownLatch arrived = new CountDownLatch(1), go = new CountDownLatch(1);
        final StandIn server;
        final JentryCache cache;

        Holding(String... properties) throws IOException {
            server = StandIn.unix((it, round, requests) -> {
                if (round >= 2) {
                    arrived.countDown();
                    go.await();
                }
                return it.right(requests);
            });
            cache = server.cache(properties).unwrap(JentryCache.class);
        }

        /** Starts a thread whose round is in progress. */
        Team putIsOut() throws InterruptedException {
            cache.put(0L, 0L);
            Team team = Team.of(1, t -> cache.put(0L, 1L));
            arrived.await();
            return team;
        }

        /** Starts an asynchronous call whose round is in progress. */
        CompletableFuture<Long> invocationIsOut() throws InterruptedException {
            CompletableFuture<Long> told = cache.invokeAsync(1L, new Sample.Key());
            arrived.await();
            return told;
        }

        @Override public void close() {
            server.close();
        }
    }

    private static int waiting(JentryCache cache) {
        return ((StreamStore) cache.store()).waiting();
    }

    private static void awaitWaiting(JentryCache cache, int count) throws InterruptedException {
        for (int i = 0; waiting(cache) != count; i++) {
            assertTrue(i < 30_000, "calls that wait: " + waiting(cache));
            Thread.sleep(1);
        }
    }

    @Test void theQueuesLimit() throws Exception {
        try (Holding held = new Holding("jentry.queue", "2")) {
            JentryCache cache = held.cache;
            CompletableFuture<Long> first = held.invocationIsOut();
            CompletableFuture<Long> second = cache.invokeAsync(1L, new Sample.Key()), third = cache.invokeAsync(1L, new Sample.Key());
            assertThrows(RejectedExecutionException.class, () -> cache.invokeAsync(1L, new Sample.Key()));
            Team waits = Team.of(3, t -> cache.put(10L + t, 5L));
            for (int i = 0; waits.threads().stream().anyMatch(it -> it.getState() != Thread.State.WAITING); i++) {
                assertTrue(i < 30_000, "threads that don't wait");
                Thread.sleep(1);
            }
            assertEquals(2, waiting(cache));
            held.go.countDown();
            waits.join();
            assertEquals(Set.of(1L, 2L, 3L), Set.of(first.join(), second.join(), third.join()));
            assertEquals(Map.of(10L, 5L, 11L, 5L, 12L, 5L), cache.getAll(Set.of(10L, 11L, 12L)));
        }
    }

    @Test void callsGatherWhileARoundIsOut() throws Exception {
        try (Holding held = new Holding()) {
            Team first = held.putIsOut();
            Team others = Team.of(20, t -> held.cache.put(1L + t, 1L));
            awaitWaiting(held.cache, 20);
            held.go.countDown();
            first.join();
            others.join();
            assertEquals(3, held.cache.store().sent());
        }
    }

    @Test void closeLetsTheRoundEndThatIsOut() throws Exception {
        try (Holding held = new Holding()) {
            Team out = held.putIsOut();
            Team waits = Team.of(5, t -> assertThrows(IllegalStateException.class, () -> held.cache.put(1L, 1L)));
            awaitWaiting(held.cache, 5);
            Team closes = Team.of(1, t -> held.cache.close());
            waits.join();
            held.go.countDown();
            out.join();
            closes.join();
            assertThrows(IllegalStateException.class, () -> held.cache.get(0L));
        }
    }

    @Test void whatDependsOnAFutureMayWaitForAnotherOfItsRound() throws Exception {
        try (Holding held = new Holding()) {
            JentryCache cache = held.cache;
            held.invocationIsOut();
            CompletableFuture<Long> one = cache.invokeAsync(2L, new Sample.Key()), other = cache.invokeAsync(3L, new Sample.Key());
            CompletableFuture<Long> sum = one.thenApply(it -> it + other.join() + cache.invoke(4L, new Sample.Key()));
            held.go.countDown();
            assertEquals(3L, sum.get(30, TimeUnit.SECONDS));
        }
    }

    @Test void denialsChangeNothingAndBreakNothing() throws IOException {
        byte[] denied = StandIn.join(StandIn.frame(8, 3), StandIn.END);
        try (StandIn server = StandIn.unix((it, round, requests) -> round % 2 == 1 ? denied : it.right(requests))) {
            Cache<Long, Long> cache = server.cache();
            assertEquals("put is denied by the server: 3 NoMemory; it changed nothing", failure(() -> cache.put(1L, 1L)));
            cache.put(1L, 5L);
            assertTrue(failure(() -> cache.invoke(1L, new Sample.Key())).contains("the class jentry.jcache.Sample$Key is denied by the server: 3 NoMemory"));
            assertEquals(5L, cache.get(1L));
            assertTrue(failure(() -> cache.putAll(Map.of(7L, 7L))).contains("3 NoMemory"));
        }
    }

    @Test void aClassTooManyIsDeniedByNameAndLaterOnesToo() throws IOException {
        byte[] denied = StandIn.join(StandIn.frame(8, 4), StandIn.END);
        try (StandIn server = StandIn.unix((it, round, requests) -> requests.get(0)[0] == Wire.DEFINE ? denied : it.right(requests))) {
            Cache<Long, Long> cache = server.cache();
            assertTrue(failure(() -> cache.invoke(1L, new Sample.Key())).contains("Sample$Key is denied by the server: 4 TooManyClasses; it changed nothing"));
            assertTrue(failure(() -> cache.putIfAbsent(1L, 1L)).contains("4 TooManyClasses; it changed nothing"));
            cache.put(1L, 5L);
            assertEquals(5L, cache.get(1L));
        }
    }

    @Test void aDeniedKeyOfInvokeAll() throws IOException {
        byte[] told = StandIn.join(StandIn.frame(7, 0, 1, 0, 0, 0, 0, 0, 0, 0, 1, 2, 3), StandIn.END);
        try (StandIn server = StandIn.unix(after(1, told))) {
            var result = server.cache().invokeAll(Set.of(1L), new Sample.Key()).get(1L);
            Throwable cause = assertThrows(EntryProcessorException.class, result::get).getCause();
            assertTrue(cause.getMessage().contains("3 NoMemory; it changed nothing"), cause.getMessage());
        }
    }

    @Test void exceptionsThatTheServerWasNotMadeToTell() throws IOException {
        Map<Integer, Class<?>> wanted = Map.of(5, IncompatibleClassChangeError.class, 6, CacheLoaderException.class);
        for (Map.Entry<Integer, Class<?>> it : wanted.entrySet()) {
            try (StandIn server = StandIn.unix(after(1, StandIn.join(StandIn.frame(6, 1, it.getKey()), StandIn.END)))) {
                Cache<Long, Long> cache = server.cache();
                tellsThrown(it.getValue(), () -> cache.invoke(1L, new Sample.Key()));
            }
            byte[] results = StandIn.frame(7, 0, 1, 0, 0, 0, 0, 0, 0, 0, 1, 1, it.getKey());
            try (StandIn server = StandIn.unix(after(1, StandIn.join(results, StandIn.END)))) {
                EntryProcessorResult<Long> told = server.cache().invokeAll(Set.of(1L), new Sample.Key()).get(1L);
                tellsThrown(it.getValue(), told::get);
            }
        }
    }

    @Test void aGetWhoseLoaderFailed() throws IOException {
        byte[] failed = StandIn.join(StandIn.frame(6, 1, 6), StandIn.END);
        try (StandIn server = StandIn.unix((it, round, requests) -> round % 2 == 1 ? failed : it.right(requests))) {
            Cache<Long, Long> cache = server.cache();
            assertThrows(CacheLoaderException.class, () -> cache.get(1L));
            cache.put(1L, 5L);
            assertThrows(CacheLoaderException.class, () -> cache.getAll(Set.of(1L)));
            assertEquals(5L, cache.get(1L));
        }
        breaks(0, StandIn.join(StandIn.frame(6, 0, 0), StandIn.END), "a result of a get that is no exception", it -> it.get(1L));
        breaks(0, StandIn.join(StandIn.frame(6, 2, 3), StandIn.END), "a result of a get that is no exception", it -> it.get(1L));
    }

    private static void tellsThrown(Class<?> cause, Executable call) {
        Throwable thrown = assertThrows(EntryProcessorException.class, call).getCause();
        assertEquals(cause, thrown.getClass());
        assertTrue(thrown.getMessage().contains(Sample.Key.class.getName()), thrown.getMessage());
    }

    @Test void interruptsOnSocketsLoseNothing() throws Exception {
        for (boolean tcp : new boolean[] {false, true}) {
            StandIn.Script script = (it, round, requests) -> it.right(requests);
            try (StandIn server = tcp ? StandIn.tcp(script) : StandIn.unix(script)) {
                Cache<Long, Long> cache = server.cache();
                Team team = Team.of(16, t -> {
                    for (long i = 0; i < 300; i++) {
                        cache.put((long) t, i);
                        assertEquals(i, cache.get((long) t));
                    }
                });
                while (team.threads().stream().anyMatch(Thread::isAlive)) {
                    team.threads().forEach(Thread::interrupt);
                    Thread.sleep(1);
                }
                team.join();
            }
        }
    }
}
