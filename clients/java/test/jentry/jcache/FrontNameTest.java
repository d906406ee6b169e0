package jentry.jcache;

import static org.junit.jupiter.api.Assertions.assertEquals;
import static org.junit.jupiter.api.Assertions.assertNull;
import static org.junit.jupiter.api.Assertions.assertThrows;
import static org.junit.jupiter.api.Assertions.assertTrue;

import java.io.IOException;
import java.net.URI;
import java.nio.file.Files;
import java.nio.file.Path;
import javax.cache.Cache;
import javax.cache.CacheException;
import javax.cache.CacheManager;
import javax.cache.Caching;
import org.junit.jupiter.api.Test;
import org.junit.jupiter.api.Timeout;

/** Tests that two names on one front aren't two caches with the same entries: the second name is refused. */
@Timeout(600)
class FrontNameTest {
    private static final StandIn.Script RIGHT = (it, round, requests) -> it.right(requests);

    private static void refuses(CacheManager manager, String name) {
        String message = assertThrows(CacheException.class, () -> manager.createCache(name, Server.types())).getMessage();
        assertTrue(message.contains("has one cache, which this JVM calls stand-in, so the entries of " + name), message);
        assertNull(manager.getCache(name));
    }

    @Test void theSecondNameIsRefusedAndTellsWhy() throws Exception {
        for (boolean tcp : new boolean[] {false, true}) {
            try (StandIn server = tcp ? StandIn.tcp(RIGHT) : StandIn.unix(RIGHT); CacheManager second = server.manager()) {
                Cache<Long, Long> first = server.cache();
                first.put(1L, 10L);
                refuses(first.getCacheManager(), "pages");
                refuses(second, "pages");
                assertEquals(10L, second.<Long, Long, javax.cache.configuration.MutableConfiguration<Long, Long>>createCache("stand-in", Server.types()).get(1L));
                assertEquals(2, server.connections(), "a refused name leaves no connection");
            }
        }
    }

    @Test void theEntriesOfAClosedCacheStayUnderItsName() throws IOException {
        try (StandIn server = StandIn.unix(RIGHT)) {
            Cache<Long, Long> first = server.cache();
            first.put(1L, 10L);
            CacheManager manager = first.getCacheManager();
            manager.destroyCache("stand-in");
            refuses(manager, "pages");
            Cache<Long, Long> again = manager.createCache("stand-in", Server.types());
            assertEquals(10L, again.get(1L));
        }
    }

    @Test void anotherPathToTheSameSocketIsTheSameFront() throws IOException {
        try (StandIn server = StandIn.unix(RIGHT)) {
            URI uri = server.cache().getCacheManager().getURI();
            Path link = Files.createSymbolicLink(Temporary.folder().resolve("link"), Path.of(uri.getSchemeSpecificPart()));
            try (CacheManager other = Caching.getCachingProvider().getCacheManager(URI.create("jentry+unix:" + link), null)) {
                refuses(other, "pages");
            }
        }
    }

    @Test void aFrontThatIsNotThereTakesNoName() throws IOException {
        Path path = Temporary.folder().resolve("socket");
        try (CacheManager manager = Caching.getCachingProvider().getCacheManager(URI.create("jentry+unix:" + path), null)) {
            for (String name : new String[] {"users", "pages"}) {
                String message = assertThrows(CacheException.class, () -> manager.createCache(name, Server.types())).getMessage();
                assertTrue(message.startsWith("there is no stream to"), message);
            }
        }
    }
}
