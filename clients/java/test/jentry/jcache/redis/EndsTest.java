package jentry.jcache.redis;

import static org.junit.jupiter.api.Assertions.assertEquals;
import static org.junit.jupiter.api.Assertions.assertTrue;

import java.nio.file.Files;
import java.nio.file.Path;
import java.util.List;
import java.util.stream.Stream;
import jentry.jcache.Temporary;
import org.junit.jupiter.api.Test;

/** Tests what a JVM leaves that ends without closing its caches, one of which listens to the server's events. */
class EndsTest extends WithRedis {
    private static long clients(RedisServer server) {
        return server.number("clients", "connected_clients");
    }

    private void leavesNothing(List<RedisServer> servers, String uri) throws Exception {
        Path temporary = Temporary.folder();
        long[] before = servers.stream().mapToLong(EndsTest::clients).toArray();
        long received = servers.get(0).number("stats", "total_connections_received");
        Process process = new ProcessBuilder("java", "-XX:+UseSerialGC", "-Djava.io.tmpdir=" + temporary, "-Djentry.events=server",
            "-cp", System.getProperty("java.class.path"), "jentry.jcache.LeavesTest", uri).redirectErrorStream(true).start();
        List<String> told = process.inputReader().lines().toList();
        assertEquals(0, process.waitFor(), told::toString);
        assertEquals(List.of("used"), told);
        assertTrue(servers.get(0).number("stats", "total_connections_received") >= received + 2, "it called and it listened");
        for (int i = 0; i < before.length; i++) {
            int at = i;
            RedisNodes.await(() -> clients(servers.get(at)) <= before[at], "a connection that stays");
        }
        try (Stream<Path> all = Files.list(temporary)) {
            assertEquals(List.of(), all.filter(it -> !it.toString().contains("hsperfdata")).toList());
        }
    }

    @Test void onOneServer() throws Exception {
        RedisServer server = open(new RedisServer("--notify-keyspace-events", "K$gxn"));
        leavesNothing(List.of(server), server.uri("app").toString());
    }

    @Test void onThreeMasters() throws Exception {
        RedisNodes nodes = open(new RedisNodes(false));
        leavesNothing(nodes.all, nodes.uri("app").toString());
    }
}
