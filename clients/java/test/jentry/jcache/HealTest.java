package jentry.jcache;

import static org.junit.jupiter.api.Assertions.assertEquals;
import static org.junit.jupiter.api.Assertions.assertFalse;
import static org.junit.jupiter.api.Assertions.assertNull;
import static org.junit.jupiter.api.Assertions.assertThrows;
import static org.junit.jupiter.api.Assertions.assertTrue;
import static org.junit.jupiter.api.Assumptions.assumeFalse;

import java.nio.file.Files;
import java.nio.file.Path;
import java.util.Arrays;
import java.util.List;
import java.util.Map;
import java.util.concurrent.CopyOnWriteArrayList;
import java.util.concurrent.atomic.AtomicInteger;
import java.util.logging.Handler;
import java.util.logging.LogRecord;
import java.util.logging.Logger;
import javax.cache.Cache;
import javax.cache.CacheException;
import jentry.jcache.stream.Wire;
import org.junit.jupiter.api.AfterEach;
import org.junit.jupiter.api.BeforeEach;
import org.junit.jupiter.api.Tag;
import org.junit.jupiter.api.Test;
import org.junit.jupiter.api.Timeout;

/** Tests that a stream that has ended is replaced by the next call, and that one log line says so. */
@Timeout(600)
class HealTest {
    private static final Logger LOG = Logger.getLogger("jentry.jcache");
    private final List<String> logged = new CopyOnWriteArrayList<>();
    private final Handler handler = new Handler() {
        @Override public void publish(LogRecord line) {
            logged.add(line.getMessage());
        }

        @Override public void flush() { }

        @Override public void close() { }
    };

    @BeforeEach void listen() {
        LOG.addHandler(handler);
    }

    @AfterEach void stop() {
        LOG.removeHandler(handler);
    }

    private void logs(String words) {
        List<String> lines = logged.stream().filter(it -> it.contains("a new one to")).toList();
        assertEquals(1, lines.size(), lines::toString);
        assertTrue(lines.get(0).contains(words), lines.get(0));
        logged.clear();
    }

    /** Returns whether a thread of the JVM waits for the end of a process, or has to tell its {@link Process} that it has ended. */
    private static boolean isAwaited() {
        return Thread.getAllStackTraces().values().stream().flatMap(Arrays::stream)
            .anyMatch(it -> it.getClassName().startsWith("java.lang.ProcessHandleImpl"));
    }

    /** Kills the children, and waits until their Process objects know it and the streams have been idle for long enough to be looked at. */
    private static void killChildren() throws InterruptedException {
        ProcessHandle.current().children().filter(ProcessHandle::isAlive).forEach(ProcessHandle::destroyForcibly);
        for (int i = 0; isAwaited() || ProcessHandle.current().children().anyMatch(ProcessHandle::isAlive); i++) {
            assertTrue(i < 30_000, "a child that lives");
            Thread.sleep(1);
        }
        Thread.sleep(50);
    }

    @Tag("server")
    @Test void aChildThatIsKilledWhileItIsIdle() throws InterruptedException {
        assumeFalse(Server.isShared());
        try (Server server = new Server()) {
            Cache<Long, Long> cache = server.cache;
            cache.putAll(Map.of(1L, 1L, 2L, 2L));
            assertEquals(6L, cache.invoke(1L, new Sample.Add(), 5L));
            killChildren();
            assertEquals(5L, cache.invoke(1L, new Sample.Add(), 5L), "the class is defined again, and the entry is gone");
            logs("all entries are gone");
            assertNull(cache.get(2L));
            assertEquals(1L, cache.iterator().next().getKey(), "the keys are those of the new child");
            killChildren();
            assertEquals(3L, server.own().invokeAsync(2L, new Sample.Add(), 3L).join());
            assertFalse(cache.containsKey(1L));
            logs("all entries are gone");
            killChildren();
            Team.of(8, t -> assertTrue(cache.putIfAbsent(100L + t, 1L))).join();
            assertEquals(8, cache.getAll(server.keys(0, 1)).size() + (int) java.util.stream.StreamSupport.stream(cache.spliterator(), false).count());
            logs("all entries are gone");
        }
    }

    /** A front closes a connection that is idle for long, and its entries stay. */
    @Test void aConnectionThatTheFrontCloses() throws Exception {
        AtomicInteger defines = new AtomicInteger();
        for (boolean tcp : new boolean[] {false, true}) {
            StandIn.Script script = (it, round, requests) -> {
                defines.addAndGet(requests.get(0)[0] == Wire.DEFINE ? 1 : 0);
                return requests.get(0)[0] == Wire.REMOVE ? null : it.right(requests);
            };
            try (StandIn front = tcp ? StandIn.tcp(script) : StandIn.unix(script)) {
                defines.set(0);
                Cache<Long, Long> cache = front.cache();
                assertEquals(1L, cache.invoke(1L, new Sample.Add(), 1L));
                assertThrows(CallOutcomeUnknownException.class, () -> cache.remove(1L), "it was out");
                assertEquals(2L, cache.invoke(1L, new Sample.Add(), 1L), "the front has its entries");
                assertEquals(2, defines.get());
                logs("if the front has ended its entries are gone");
                front.cut();
                Thread.sleep(50);
                assertEquals(2L, cache.get(1L), "a call on a connection that was closed while it was idle isn't lost");
                logs("if the front has ended its entries are gone");
            }
        }
    }

    @Test void aFrontThatIsGone() throws Exception {
        Cache<Long, Long> cache;
        try (StandIn front = StandIn.unix((it, round, requests) -> it.right(requests))) {
            cache = front.cache();
            cache.put(1L, 1L);
            front.stop();
            Files.delete(Path.of(cache.getCacheManager().getURI().getSchemeSpecificPart()));
            front.cut();
            Thread.sleep(50);
            for (int i = 0; i < 2; i++) {
                String message = assertThrows(CallNotSentException.class, () -> cache.get(1L)).getMessage();
                assertTrue(message.contains("and there is no new one to jentry+unix:"), message);
            }
            assertFalse(cache.isClosed());
        }
        assertThrows(IllegalStateException.class, () -> cache.get(1L));
        assertThrows(IllegalStateException.class, () -> cache.put(1L, 1L));
    }

    @Test void aClosedCacheIsntHealed() throws Exception {
        try (StandIn front = StandIn.unix((it, round, requests) -> round == 2 ? null : it.right(requests))) {
            Cache<Long, Long> cache = front.cache();
            cache.put(1L, 1L);
            assertThrows(CacheException.class, () -> cache.get(1L));
            cache.close();
            assertThrows(IllegalStateException.class, () -> cache.get(1L));
            for (int i = 0; front.connections() != 0; i++) {
                assertTrue(i < 30_000, "a connection that stays");
                Thread.sleep(1);
            }
        }
    }
}
