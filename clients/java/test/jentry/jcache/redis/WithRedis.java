package jentry.jcache.redis;

import static org.junit.jupiter.api.Assumptions.assumeTrue;

import java.io.IOException;
import java.nio.file.Files;
import java.nio.file.Path;
import java.util.ArrayList;
import java.util.List;
import javax.cache.Cache;
import javax.cache.CacheManager;
import javax.cache.configuration.MutableConfiguration;
import org.junit.jupiter.api.AfterEach;
import org.junit.jupiter.api.BeforeAll;
import org.junit.jupiter.api.Tag;
import org.junit.jupiter.api.Timeout;

/** The base of tests that start their own redis-servers; they are skipped without a redis-server or the module. */
@Tag("redis")
@Timeout(1_800)
abstract class WithRedis {
    private final List<AutoCloseable> opened = new ArrayList<>();

    @BeforeAll static void find() {
        assumeTrue(Files.isRegularFile(Path.of(System.getProperty("jentry.test.module", ""))),
            "there is no module of Redis (JENTRY_MODULE)");
        assumeTrue(isThere("redis-server", "--version"), "there is no redis-server (apt-get install redis-server)");
    }

    static boolean isThere(String... command) {
        try {
            Process process = new ProcessBuilder(command).redirectErrorStream(true).start();
            process.getInputStream().readAllBytes();
            return process.waitFor() == 0;
        } catch (IOException | InterruptedException e) {
            return false;
        }
    }

    /** Registers an object to be closed after the test, the last one first. */
    <T extends AutoCloseable> T open(T it) {
        opened.add(0, it);
        return it;
    }

    @AfterEach void close() throws Exception {
        for (AutoCloseable it : opened) {
            it.close();
        }
    }

    static MutableConfiguration<Long, Long> types() {
        return new MutableConfiguration<Long, Long>().setTypes(Long.class, Long.class);
    }

    CacheManager manager(RedisServer server, String... properties) {
        return open(server.manager("app", properties));
    }

    Cache<Long, Long> cache(RedisServer server, String... properties) {
        return manager(server, properties).createCache("test", types());
    }
}
