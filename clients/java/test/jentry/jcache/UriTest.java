package jentry.jcache;

import static org.junit.jupiter.api.Assertions.assertEquals;
import static org.junit.jupiter.api.Assertions.assertThrows;
import static org.junit.jupiter.api.Assertions.assertTrue;

import java.net.URI;
import java.util.List;
import java.util.Map;
import java.util.Properties;
import javax.cache.Cache;
import javax.cache.CacheException;
import javax.cache.CacheManager;
import javax.cache.spi.CachingProvider;
import org.junit.jupiter.api.BeforeEach;
import org.junit.jupiter.api.Test;

/** Tests the URIs and properties of a manager, on the real server. */
class UriTest extends OnServer {
    private CachingProvider provider;

    @BeforeEach void find() {
        provider = server.manager.getCachingProvider();
    }

    private String cannot(String uri, String... properties) {
        Properties all = StandIn.properties(properties);
        return assertThrows(CacheException.class, () -> provider.getCacheManager(URI.create(uri), null, all)).getMessage();
    }

    @Test void urisAndPropertiesThatCannotBeUnderstood() {
        for (String uri : List.of("jentry:relative", "jentry+unix:relative", "jentry+tcp://host", "jentry+tcp:host:1", "redis://host:1")) {
            assertTrue(cannot(uri).contains("a URI is jentry:default, jentry:/PATH/OF/PROGRAM"), uri);
        }
        assertTrue(cannot("jentry:/a", "jentry.tiemout", "1").contains("jentry.tiemout"));
        assertTrue(cannot("jentry+unix:/a", "jentry.workers", "1").contains("jentry.workers"));
        for (String name : List.of("jentry.timeout", "jentry.queue", "jentry.workers", "jentry.stripes")) {
            assertTrue(cannot("jentry:/a", name, "-1").contains(name + " is a number from"), name);
            assertTrue(cannot("jentry:/a", name, "x").contains(name + " is a number from"), name);
        }
        assertTrue(cannot("jentry:/a", "jentry.queue", "0").contains("from 1"));
        for (String uri : List.of("jentry+redis:host", "jentry+redis:///a", "jentry+redis://a:1,:2", "jentry+redis://a:x", "jentry+redis://a?b")) {
            assertTrue(cannot(uri).contains("jentry+redis://HOST:PORT[,HOST:PORT ..][/NAME]"), uri);
        }
        assertTrue(cannot("jentry+redis://a", "jentry.workers", "1").contains("jentry.workers"));
        assertTrue(cannot("jentry:/a", "jentry.events", "server").contains("jentry.events"));
        assertTrue(cannot("jentry+redis://a", "jentry.events", "all").contains("is one of local, expired, server, not all"));
        assertTrue(cannot("jentry:/a", "jentry.near", "5").contains("jentry.near isn't one of"));
        assertTrue(cannot("jentry+redis://a", "jentry.near", "-1").contains("jentry.near is a number from 0"));
        assertTrue(cannot("jentry+redis://a", "jentry.local", "yes").contains("is one of false, true, not yes"));
        assertTrue(cannot("jentry:/a", "jentry.compile", "maybe").contains("jentry.compile is one of true, false, not maybe"));
    }

    @Test void propertiesOfAChild() {
        Properties all = new Properties();
        all.setProperty("jentry.program", System.getProperty("jentry.program"));
        all.setProperty("jentry.workers", "2");
        all.setProperty("jentry.stripes", "4");
        all.setProperty("jentry.timeout", "0");
        all.setProperty("other", "kept");
        try (CacheManager own = provider.getCacheManager(URI.create("jentry:default"), new ClassLoader() { }, all)) {
            assertEquals(all, own.getProperties());
            Cache<Long, Long> small = own.createCache("a", Server.types());
            small.putAll(Map.of(1L, 1L, 2L, 2L));
            assertEquals(2L, small.invoke(2L, new Sample.Key()));
        }
    }
}
