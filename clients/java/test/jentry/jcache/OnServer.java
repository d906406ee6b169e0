package jentry.jcache;

import java.util.ArrayList;
import java.util.List;
import javax.cache.Cache;
import javax.cache.CacheManager;
import javax.cache.configuration.MutableConfiguration;
import org.junit.jupiter.api.AfterEach;
import org.junit.jupiter.api.BeforeEach;
import org.junit.jupiter.api.Tag;

/** The base of tests on the real server. Each test has its own cache, and a key that no other test uses. */
@Tag("server")
abstract class OnServer {
    Server server;
    Cache<Long, Long> cache;
    long k;
    private final List<CacheManager> managers = new ArrayList<>();

    @BeforeEach void open() {
        server = new Server();
        cache = server.cache;
        k = server.key(1);
    }

    /** Creates another cache on the server, from a manager with these properties: names and values alternate. */
    Cache<Long, Long> create(MutableConfiguration<Long, Long> configuration, String... properties) {
        CacheManager own = server.manager.getCachingProvider().getCacheManager(Server.AT, new ClassLoader() { },
            StandIn.properties(properties));
        managers.add(own);
        return own.createCache(Server.isFront() ? "test" : "configured", configuration);
    }

    @AfterEach void close() {
        managers.forEach(CacheManager::close);
        server.close();
    }

    /** Returns the number of rounds that the cache has sent. */
    long rounds() {
        return server.own().store().sent();
    }
}
