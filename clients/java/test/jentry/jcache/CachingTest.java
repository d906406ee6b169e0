package jentry.jcache;

import static org.junit.jupiter.api.Assertions.assertEquals;
import static org.junit.jupiter.api.Assertions.assertFalse;
import static org.junit.jupiter.api.Assertions.assertNotSame;
import static org.junit.jupiter.api.Assertions.assertNull;
import static org.junit.jupiter.api.Assertions.assertSame;
import static org.junit.jupiter.api.Assertions.assertThrows;
import static org.junit.jupiter.api.Assertions.assertTrue;

import java.net.URI;
import java.util.ArrayList;
import java.util.List;
import java.util.Properties;
import javax.cache.Cache;
import javax.cache.CacheManager;
import javax.cache.Caching;
import javax.cache.configuration.OptionalFeature;
import javax.cache.spi.CachingProvider;
import org.junit.jupiter.api.BeforeEach;
import org.junit.jupiter.api.Test;

/** Tests each method of CachingProvider, and that Caching finds the provider, on the real server. */
class CachingTest extends OnServer {
    private CacheManager manager;
    private CachingProvider provider;

    @BeforeEach void find() {
        manager = server.manager;
        provider = manager.getCachingProvider();
    }

    @Test void theProviderIsFound() {
        assertEquals(JentryCachingProvider.class, Caching.getCachingProvider().getClass());
        assertSame(provider, Caching.getCachingProvider());
        assertFalse(provider.isSupported(OptionalFeature.STORE_BY_REFERENCE));
        assertEquals(URI.create("jentry:default"), provider.getDefaultURI());
        assertEquals(new Properties(), provider.getDefaultProperties());
        assertEquals(provider.getDefaultURI(), provider.getCacheManager().getURI());
    }

    @Test void theProviderIsFoundByEveryWay() {
        assertSame(provider, Caching.getCachingProvider(Caching.getDefaultClassLoader()));
        assertSame(provider, Caching.getCachingProvider(JentryCachingProvider.class.getName()));
        List<CachingProvider> all = new ArrayList<>();
        Caching.getCachingProviders().forEach(all::add);
        assertEquals(List.of(provider), all);
    }

    @Test void getCacheOfTheDefaultManager() {
        try (CacheManager own = provider.getCacheManager()) {
            assertNull(Caching.getCache("of the default", Long.class, Long.class));
            Cache<Long, Long> made = own.getURI().equals(Server.AT) ? cache : null;
            assertSame(made, Caching.getCache("test", Long.class, Long.class));
            assertThrows(NullPointerException.class, () -> Caching.getCache(null, Long.class, Long.class));
        }
    }

    @Test void defaultsOfAManager() {
        try (CacheManager one = provider.getCacheManager(null, null)) {
            assertSame(one, provider.getCacheManager());
            assertSame(one, provider.getCacheManager(null, null, null));
            assertEquals(provider.getDefaultURI(), one.getURI());
            assertSame(provider.getDefaultClassLoader(), one.getClassLoader());
            assertEquals(new Properties(), one.getProperties());
            assertSame(provider, one.getCachingProvider());
        }
    }

    @Test void closeByLoaderOrUriClosesNoOther() {
        ClassLoader other = new ClassLoader() { };
        CacheManager second = provider.getCacheManager(Server.AT, other), third = provider.getCacheManager(URI.create("jentry+unix:/no/socket"), other);
        provider.close(URI.create("jentry+unix:/no/socket"), provider.getDefaultClassLoader());
        assertFalse(third.isClosed());
        provider.close(Server.AT, other);
        assertTrue(second.isClosed());
        assertFalse(third.isClosed());
        assertFalse(manager.isClosed());
        provider.close(null);
        assertTrue(manager.isClosed(), "null stands for the default loader");
        assertFalse(third.isClosed());
        provider.close(other);
        assertTrue(third.isClosed());
        assertTrue(cache.isClosed());
    }

    @Test void oneManagerForEachUriAndLoader() {
        ClassLoader other = new ClassLoader() { };
        assertSame(manager, provider.getCacheManager(Server.AT, null));
        assertSame(manager, provider.getCacheManager(Server.AT, provider.getDefaultClassLoader(), new Properties()));
        CacheManager second = provider.getCacheManager(Server.AT, other);
        assertNotSame(manager, second);
        assertSame(other, second.getClassLoader());
        provider.close(other);
        assertTrue(second.isClosed());
        assertFalse(manager.isClosed());
        provider.close(Server.AT, provider.getDefaultClassLoader());
        assertTrue(manager.isClosed());
        assertNotSame(manager, provider.getCacheManager(Server.AT, null));
        provider.close();
    }

    @Test void closingTheProviderClosesItsCaches() {
        provider.close();
        assertTrue(manager.isClosed());
        assertTrue(cache.isClosed());
    }
}
