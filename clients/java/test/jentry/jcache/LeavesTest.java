package jentry.jcache;

import static org.junit.jupiter.api.Assertions.assertEquals;
import static org.junit.jupiter.api.Assertions.assertFalse;
import static org.junit.jupiter.api.Assertions.assertTrue;

import java.io.IOException;
import java.net.URI;
import java.nio.file.Files;
import java.nio.file.Path;
import java.util.ArrayList;
import java.util.List;
import java.util.Map;
import java.util.Set;
import java.util.stream.Collectors;
import java.util.stream.Stream;
import javax.cache.Cache;
import javax.cache.CacheManager;
import javax.cache.Caching;
import org.junit.jupiter.api.Tag;
import org.junit.jupiter.api.Test;

/** Tests that a closed manager and a JVM that ends leave no process, thread, socket or file. */
@Tag("server")
class LeavesTest {
    private static final int PATIENCE = 30_000;

    private static void use(Cache<Long, Long> cache) {
        Heard heard = new Heard(0);
        cache.registerCacheEntryListener(heard.by(false, false));
        cache.put(-1L, 1L);
        cache.invoke(-1L, new Sample.Add(), 1L);
        cache.unwrap(JentryCache.class).invokeAsync(-1L, new Sample.Add(), 1L).join();
        cache.putAll(Map.of(-2L, 1L, -3L, 1L));
        cache.loadAll(Set.of(-1L), true, null);
        cache.removeAll(Set.of(-1L, -2L, -3L));
    }

    private static long openFiles() throws IOException {
        try (Stream<Path> all = Files.list(Path.of("/proc/self/fd"))) {
            return all.count();
        }
    }

    private static Set<String> threads() {
        return Thread.getAllStackTraces().keySet().stream().map(Thread::getName).filter(it -> it.startsWith("jentry-"))
            .collect(Collectors.toSet());
    }

    private static long children() {
        return ProcessHandle.current().children().filter(ProcessHandle::isAlive).count();
    }

    interface Condition {
        boolean holds() throws IOException;
    }

    private static void awaitNoThreads() throws Exception {
        for (int i = 0; !threads().isEmpty(); i++) {
            assertTrue(i < PATIENCE, () -> "threads that stay: " + threads());
            Thread.sleep(1);
        }
    }

    private static void await(Condition condition, String otherwise) throws Exception {
        for (int i = 0; !condition.holds(); i++) {
            assertTrue(i < PATIENCE, otherwise);
            Thread.sleep(1);
        }
    }

    @Test void aClosedManager() throws Exception {
        try (Server first = new Server()) {
            use(first.cache);
        }
        awaitNoThreads();
        long files = openFiles(), processes = children();
        for (int i = 0; i < 5; i++) {
            try (Server server = new Server()) {
                use(server.cache);
                assertTrue(openFiles() > files, "a cache on a server has a file open");
                assertFalse(threads().isEmpty());
            }
        }
        awaitNoThreads();
        await(() -> openFiles() <= files && children() <= processes, "files or processes that stay");
    }

    /** Makes a cache, prints the processes and ends without closing the cache. */
    public static void main(String[] words) {
        CacheManager manager = Caching.getCachingProvider().getCacheManager(URI.create(words[0]), null);
        use(manager.createCache("test", Server.types()));
        ProcessHandle.current().children().forEach(it -> System.out.println(it.pid()));
        System.out.println("used");
    }

    @Test void aJvmThatEndsWithoutClosing() throws Exception {
        Path temporary = Temporary.folder();
        List<String> command = new ArrayList<>(List.of("java", "-XX:+UseSerialGC", "-Djava.io.tmpdir=" + temporary,
            "-Djentry.program=" + System.getProperty("jentry.program"), "-cp", System.getProperty("java.class.path"),
            LeavesTest.class.getName(), Server.AT.toString()));
        Process process = new ProcessBuilder(command).redirectErrorStream(true).start();
        List<String> told = process.inputReader().lines().toList();
        assertEquals(0, process.waitFor(), told::toString);
        assertEquals("used", told.get(told.size() - 1));
        assertEquals(Server.isShared() ? 1 : 2, told.size(), told::toString);
        for (String pid : told.subList(0, told.size() - 1)) {
            await(() -> !ProcessHandle.of(Long.parseLong(pid)).map(ProcessHandle::isAlive).orElse(false), "a process that stays");
        }
        try (Stream<Path> all = Files.list(temporary)) {
            assertEquals(List.of(), all.filter(it -> !it.toString().contains("hsperfdata")).toList());
        }
    }
}
