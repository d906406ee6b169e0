package jentry.jcache.redis;

import static org.junit.jupiter.api.Assumptions.assumeTrue;

import java.net.URI;
import java.nio.file.Files;
import java.nio.file.Path;
import java.util.ArrayList;
import java.util.List;
import javax.cache.CacheManager;
import org.junit.jupiter.api.AfterEach;
import org.junit.jupiter.api.BeforeEach;
import org.junit.jupiter.api.Timeout;

/**
 * The base of tests on a redis-server behind {@link StandInModule}, which answers the commands of the module where there is none. They are skipped without a
 * redis-server.
 */
@Timeout(1_800)
abstract class WithStandInModule {
    RedisServer server;
    StandInModule module;
    private final List<AutoCloseable> opened = new ArrayList<>();

    @BeforeEach void start() throws Exception {
        assumeTrue(WithRedis.isThere("redis-server", "--version"), "there is no redis-server (apt-get install redis-server)");
        boolean hasModule = Files.isRegularFile(Path.of(System.getProperty("jentry.test.module", "")));
        server = open(new RedisServer(hasModule));
        module = open(new StandInModule(server.port, !hasModule));
    }

    /** Registers an object to be closed after the test, the last one first. */
    <T extends AutoCloseable> T open(T it) {
        opened.add(0, it);
        return it;
    }

    @AfterEach void close() throws Exception {
        for (AutoCloseable it : opened) {
            it.close();
        }
    }

    /** Creates a manager with these properties: names and values alternate. */
    CacheManager manager(String... properties) {
        return open(RedisServer.manager(URI.create("jentry+redis://127.0.0.1:" + module.port() + "/app"), properties));
    }
}
