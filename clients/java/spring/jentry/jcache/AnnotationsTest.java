package jentry.jcache;

import static org.junit.jupiter.api.Assertions.assertEquals;
import static org.junit.jupiter.api.Assertions.assertNull;
import static org.junit.jupiter.api.Assertions.assertSame;
import static org.junit.jupiter.api.Assertions.assertThrows;

import java.util.ArrayList;
import java.util.List;
import javax.cache.Caching;
import javax.cache.annotation.CacheRemove;
import javax.cache.annotation.CacheRemoveAll;
import javax.cache.annotation.CacheResult;
import javax.cache.configuration.MutableConfiguration;
import org.aopalliance.aop.Advice;
import org.junit.jupiter.api.BeforeEach;
import org.junit.jupiter.api.Test;
import org.springframework.aop.framework.ProxyFactory;
import org.springframework.cache.annotation.AnnotationCacheOperationSource;
import org.springframework.cache.annotation.CacheEvict;
import org.springframework.cache.annotation.CachePut;
import org.springframework.cache.annotation.Cacheable;
import org.springframework.cache.interceptor.CacheInterceptor;
import org.springframework.cache.jcache.JCacheCacheManager;
import org.springframework.cache.jcache.interceptor.DefaultJCacheOperationSource;
import org.springframework.cache.jcache.interceptor.JCacheInterceptor;

/** Tests Spring's annotations and those of JCache, which Spring implements, on the provider. */
class AnnotationsTest extends OnServer {
    private final List<String> calls = new ArrayList<>();
    private Books spring;
    private Books standard;

    /** A service whose results are cached. */
    interface Books {
        Long find(long key);

        Long findOrNull(long key);

        Long save(long key, Long value);

        void forget(long key);

        void forgetAll();

        default Long fail(long key) {
            throw new IllegalStateException();
        }
    }

    private Long found(String call, Long value) {
        calls.add(call);
        return value;
    }

    /** With Spring's annotations. */
    private final class OfSpring implements Books {
        @Cacheable("test")
        @Override public Long find(long key) {
            return found("find", 49L);
        }

        @Cacheable(cacheNames = "test", unless = "#result == null")
        @Override public Long findOrNull(long key) {
            return found("findOrNull", null);
        }

        @CachePut(cacheNames = "test", key = "#p0")
        @Override public Long save(long key, Long value) {
            return found("save", value);
        }

        @CacheEvict("test")
        @Override public void forget(long key) {
            calls.add("forget");
        }

        @CacheEvict(cacheNames = "test", allEntries = true)
        @Override public void forgetAll() {
            calls.add("forgetAll");
        }
    }

    /** With the annotations of JCache. */
    private final class OfTheStandard implements Books {
        @CacheResult(cacheName = "test")
        @Override public Long find(long key) {
            return found("find", 49L);
        }

        @CacheResult(cacheName = "test")
        @Override public Long findOrNull(long key) {
            return found("findOrNull", null);
        }

        @javax.cache.annotation.CachePut(cacheName = "test")
        @Override public Long save(@javax.cache.annotation.CacheKey long key, @javax.cache.annotation.CacheValue Long value) {
            return found("save", value);
        }

        @CacheRemove(cacheName = "test")
        @Override public void forget(long key) {
            calls.add("forget");
        }

        @CacheResult(cacheName = "test", exceptionCacheName = "test")
        @Override public Long fail(long key) {
            throw new IllegalStateException();
        }

        @CacheRemoveAll(cacheName = "test")
        @Override public void forgetAll() {
            calls.add("forgetAll");
        }
    }

    @BeforeEach void wrap() {
        JCacheCacheManager manager = new JCacheCacheManager(cache.getCacheManager());
        manager.setAllowNullValues(false);
        manager.afterPropertiesSet();
        CacheInterceptor ofSpring = new CacheInterceptor();
        ofSpring.setCacheOperationSources(new AnnotationCacheOperationSource());
        ofSpring.setCacheManager(manager);
        ofSpring.afterPropertiesSet();
        ofSpring.afterSingletonsInstantiated();
        spring = proxy(new OfSpring(), ofSpring);
        DefaultJCacheOperationSource source = new DefaultJCacheOperationSource();
        source.setCacheManager(manager);
        source.afterPropertiesSet();
        source.afterSingletonsInstantiated();
        JCacheInterceptor ofTheStandard = new JCacheInterceptor();
        ofTheStandard.setCacheOperationSource(source);
        ofTheStandard.afterPropertiesSet();
        standard = proxy(new OfTheStandard(), ofTheStandard);
    }

    private static Books proxy(Books target, Advice advice) {
        ProxyFactory factory = new ProxyFactory(target);
        factory.addAdvice(advice);
        return (Books) factory.getProxy();
    }

    private void works(Books books) {
        assertEquals(49L, books.find(k));
        assertEquals(49L, books.find(k));
        assertEquals(List.of("find"), calls, "the second result is the cache's");
        assertEquals(49L, cache.get(k));
        assertEquals(5L, books.save(k, 5L));
        assertEquals(5L, books.find(k));
        books.forget(k);
        assertNull(cache.get(k));
        assertEquals(49L, books.find(k));
        assertEquals(List.of("find", "save", "forget", "find"), calls);
    }

    @Test void thoseOfSpring() {
        works(spring);
    }

    @Test void thoseOfTheStandard() {
        works(standard);
    }

    @Test void allEntriesAreRemoved() {
        for (Books books : List.of(spring, standard)) {
            cache.put(k, 1L);
            cache.put(k + 1, 2L);
            if (Server.isFront()) {
                assertThrows(UnsupportedOperationException.class, books::forgetAll);
            } else {
                books.forgetAll();
                assertNull(cache.get(k));
                assertNull(cache.get(k + 1));
            }
        }
    }

    @Test void aNullResultIsKeptOutByUnless() {
        assertNull(spring.findOrNull(k));
        assertNull(spring.findOrNull(k));
        assertEquals(List.of("findOrNull", "findOrNull"), calls);
        assertThrows(NullPointerException.class, () -> standard.findOrNull(k));
    }

    @Test void anExceptionCantBeKept() {
        assertThrows(IllegalStateException.class, () -> spring.fail(k));
        assertThrows(ClassCastException.class, () -> standard.fail(k));
        assertNull(cache.get(k));
    }

    /** Spring Boot looks up the provider by its name, and creates the caches of spring.cache.cache-names with a bean that is their configuration, else without types. */
    @Test void theProviderThatSpringBootNames() {
        assertSame(JentryCachingProvider.class, Caching.getCachingProvider("jentry.jcache.JentryCachingProvider").getClass());
        assertThrows(IllegalArgumentException.class, () -> cache.getCacheManager().createCache("untyped", new MutableConfiguration<>()));
    }
}
