package jentry.jcache;

import static org.junit.jupiter.api.Assertions.assertEquals;
import static org.junit.jupiter.api.Assertions.assertFalse;
import static org.junit.jupiter.api.Assertions.assertNotSame;
import static org.junit.jupiter.api.Assertions.assertNull;
import static org.junit.jupiter.api.Assertions.assertSame;
import static org.junit.jupiter.api.Assertions.assertThrows;
import static org.junit.jupiter.api.Assertions.assertTrue;
import static org.junit.jupiter.api.Assumptions.assumeFalse;

import java.net.URI;
import java.util.ArrayList;
import java.util.List;
import java.util.Properties;
import java.util.Set;
import javax.cache.Cache;
import javax.cache.CacheException;
import javax.cache.CacheManager;
import org.junit.jupiter.api.BeforeEach;
import org.junit.jupiter.api.Test;
import org.junit.jupiter.api.function.Executable;

/** Tests each method of CacheManager, on the real server. */
class CacheManagerTest extends OnServer {
    private CacheManager manager;

    @BeforeEach void find() {
        manager = server.manager;
    }

    @Test void localMethods() {
        assertEquals(Server.AT, manager.getURI());
        assertSame(manager.getCachingProvider().getDefaultClassLoader(), manager.getClassLoader());
        assertEquals(new Properties(), manager.getProperties());
        assertSame(manager, manager.unwrap(JentryCacheManager.class));
        assertSame(manager, manager.unwrap(CacheManager.class));
        assertThrows(IllegalArgumentException.class, () -> manager.unwrap(String.class));
        assertFalse(manager.isClosed());
    }

    @Test void thePropertiesAreACopy() {
        manager.getProperties().setProperty("other", "1");
        assertEquals(new Properties(), manager.getProperties());
    }

    @Test void cachesByTheirNames() {
        assertSame(cache, manager.getCache("test", Long.class, Long.class));
        assertSame(cache, manager.getCache("test"));
        assertNull(manager.getCache("other"));
        assertNull(manager.getCache("other", Long.class, Long.class));
        assertEquals(List.of("test"), manager.getCacheNames());
        assertThrows(CacheException.class, () -> manager.createCache("test", Server.types()));
        for (Executable call : List.<Executable>of(() -> manager.getCache(null), () -> manager.destroyCache(null),
            () -> manager.getCache(null, Long.class, Long.class), () -> manager.getCache("test", null, Long.class), () -> manager.getCache("test", Long.class, null),
            () -> manager.createCache(null, Server.types()), () -> manager.createCache("a", null), () -> manager.enableStatistics(null, true),
            () -> manager.enableManagement(null, true))) {
            assertThrows(NullPointerException.class, call);
        }
    }

    @Test void severalCachesOfOneManager() {
        assumeFalse(Server.isFront(), "a front has one cache");
        Cache<Long, Long> second = manager.createCache("second", Server.types());
        assertNotSame(cache, second);
        assertEquals(Set.of("test", "second"), Set.copyOf(namesOf(manager)));
        assertSame(second, manager.getCache("second"));
        second.close();
        assertEquals(List.of("test"), namesOf(manager));
        assertNull(manager.getCache("second"));
        assertFalse(cache.isClosed());
        cache.put(k, 1L);
        assertEquals(1L, cache.get(k));
    }

    private static List<String> namesOf(CacheManager manager) {
        List<String> names = new ArrayList<>();
        manager.getCacheNames().forEach(names::add);
        return names;
    }

    @Test void theNamesAreThoseOfTheirMoment() {
        assumeFalse(Server.isFront(), "a front has one cache");
        Iterable<String> before = manager.getCacheNames();
        manager.createCache("second", Server.types());
        assertEquals(List.of("test"), before);
        assertThrows(UnsupportedOperationException.class, () -> before.iterator().remove());
    }

    @Test void destroyCacheClosesItAndItsNameIsFree() {
        manager.destroyCache("test");
        manager.destroyCache("test");
        assertTrue(cache.isClosed());
        assertEquals(List.of(), manager.getCacheNames());
        Cache<Long, Long> again = manager.createCache("test", Server.types());
        again.put(server.key(1), 1L);
        assertEquals(1L, again.get(server.key(1)));
    }

    @Test void aCacheThatIsNotThereIsDestroyedByNothing() {
        manager.destroyCache("other");
        assertEquals(List.of("test"), manager.getCacheNames());
        assertFalse(cache.isClosed());
    }

    @Test void everyCallOnAClosedManagerFails() {
        manager.close();
        manager.close();
        assertTrue(manager.isClosed());
        assertTrue(cache.isClosed());
        for (Executable call : List.<Executable>of(() -> manager.getCache("test"), manager::getCacheNames,
            () -> manager.getCache("test", Long.class, Long.class), () -> manager.createCache("a", Server.types()), () -> manager.destroyCache("test"),
            () -> manager.enableStatistics("test", true), () -> manager.enableManagement("test", true))) {
            assertThrows(IllegalStateException.class, call);
        }
    }

    @Test void statisticsAndManagementOfACacheThatIsNotThere() {
        assertThrows(CacheException.class, () -> manager.enableStatistics("other", true));
        assertThrows(CacheException.class, () -> manager.enableManagement("other", true));
    }

    @Test void aChildEndsWithItsCacheAndSoDoItsEntries() {
        URI uri = URI.create("jentry:" + System.getProperty("jentry.program"));
        try (CacheManager own = manager.getCachingProvider().getCacheManager(uri, null, null)) {
            Cache<Long, Long> one = own.createCache("a", Server.types());
            Cache<Long, Long> other = own.createCache("b", Server.types());
            one.put(1L, 1L);
            assertNull(other.get(1L));
            long before = children();
            one.close();
            assertEquals(before - 1, children());
            Cache<Long, Long> again = own.createCache("a", Server.types());
            assertNull(again.get(1L));
        }
    }

    private static long children() {
        return ProcessHandle.current().children().filter(ProcessHandle::isAlive).count();
    }
}
