package jentry.jcache.jsr107;

import static jentry.jcache.jsr107.Expect.eachThrows;
import static jentry.jcache.jsr107.Expect.no;
import static jentry.jcache.jsr107.Expect.none;
import static jentry.jcache.jsr107.Expect.same;
import static jentry.jcache.jsr107.Expect.yes;

import java.net.URI;
import java.util.Properties;
import javax.cache.CacheManager;
import javax.cache.configuration.OptionalFeature;
import javax.cache.spi.CachingProvider;
import org.junit.jupiter.api.Tag;

/** Caching providers: one manager for each URI and class loader. */
@Tag("server")
class ProviderTest {
    private static final class Loader extends ClassLoader { }

    @Jsr void defaults(Subject on) {
        CachingProvider provider = on.provider();
        yes(provider.getDefaultURI() != null);
        same(provider.getDefaultURI(), provider.getDefaultURI());
        yes(provider.getDefaultClassLoader() != null);
        yes(provider.getDefaultProperties() != null);
        no(provider.isSupported(OptionalFeature.STORE_BY_REFERENCE));
    }

    @Jsr void oneManagerForAUriAndALoader(Subject on) {
        CachingProvider provider = on.provider();
        ClassLoader loader = new Loader(), other = new Loader();
        try (CacheManager first = provider.getCacheManager(on.uri(), loader); CacheManager second = provider.getCacheManager(on.uri(), other)) {
            yes(first == provider.getCacheManager(on.uri(), loader));
            yes(first == provider.getCacheManager(on.uri(), loader, new Properties()));
            yes(first != second);
            same(on.uri(), first.getURI());
            same(loader, first.getClassLoader());
            same(other, second.getClassLoader());
            same(provider, first.getCachingProvider());
            no(first.isClosed());
            no(second.isClosed());
        }
    }

    @Jsr void nullsAreTheDefaults(Subject on) {
        CachingProvider provider = on.provider();
        try (CacheManager manager = provider.getCacheManager(null, null)) {
            same(provider.getDefaultURI(), manager.getURI());
            same(provider.getDefaultClassLoader(), manager.getClassLoader());
            yes(manager == provider.getCacheManager());
            yes(manager == provider.getCacheManager(null, null, null));
            yes(manager == provider.getCacheManager(provider.getDefaultURI(), provider.getDefaultClassLoader()));
        }
    }

    @Jsr void theFirstPropertiesStay(Subject on) {
        ClassLoader loader = new Loader();
        Properties properties = new Properties();
        properties.setProperty("own.first", "1");
        try (CacheManager manager = on.provider().getCacheManager(on.uri(), loader, properties)) {
            same("1", manager.getProperties().getProperty("own.first"));
            yes(manager == on.provider().getCacheManager(on.uri(), loader, new Properties()));
            same("1", manager.getProperties().getProperty("own.first"));
        }
    }

    @Jsr void aClosedManagerIsMadeAnew(Subject on) {
        ClassLoader loader = new Loader();
        CacheManager first = on.provider().getCacheManager(on.uri(), loader);
        first.close();
        yes(first.isClosed());
        try (CacheManager second = on.provider().getCacheManager(on.uri(), loader)) {
            yes(first != second);
            no(second.isClosed());
        }
    }

    @Jsr void closingByLoader(Subject on) {
        ClassLoader loader = new Loader(), other = new Loader();
        CacheManager first = on.provider().getCacheManager(on.uri(), loader);
        try (CacheManager second = on.provider().getCacheManager(on.uri(), other)) {
            on.provider().close(loader);
            yes(first.isClosed());
            no(second.isClosed());
            on.provider().close(loader);
            yes(first.isClosed());
        }
    }

    @Jsr void closingByUriAndLoader(Subject on) {
        ClassLoader loader = new Loader();
        CacheManager manager = on.provider().getCacheManager(on.uri(), loader);
        on.provider().close(URI.create("jentry:/no/such/program"), loader);
        no(manager.isClosed());
        on.provider().close(on.uri(), new Loader());
        no(manager.isClosed());
        on.provider().close(on.uri(), loader);
        yes(manager.isClosed());
    }

    @Jsr void closingTheManagerOfOneCacheClosesItsCaches(Subject on) {
        CacheManager manager = on.manager();
        var cache = manager.createCache(on.name(), Subject.types());
        on.provider().close(manager.getClassLoader());
        yes(manager.isClosed());
        yes(cache.isClosed());
        eachThrows(IllegalStateException.class, () -> cache.get(1L), manager::getCacheNames);
    }

    @Jsr void aManagerHasNoCacheAtFirst(Subject on) {
        CacheManager manager = on.manager();
        no(manager.getCacheNames().iterator().hasNext());
        none(manager.getCache("absent"));
        none(manager.getCache("absent", Long.class, Long.class));
    }
}
