package jentry.jcache.jsr107;

import static jentry.jcache.jsr107.Expect.eachThrows;
import static jentry.jcache.jsr107.Expect.no;
import static jentry.jcache.jsr107.Expect.none;
import static jentry.jcache.jsr107.Expect.same;
import static jentry.jcache.jsr107.Expect.thrown;
import static jentry.jcache.jsr107.Expect.yes;

import java.util.concurrent.TimeUnit;
import javax.cache.Cache;
import javax.cache.configuration.CompleteConfiguration;
import javax.cache.configuration.Configuration;
import javax.cache.configuration.Factory;
import javax.cache.configuration.MutableCacheEntryListenerConfiguration;
import javax.cache.configuration.MutableConfiguration;
import javax.cache.expiry.Duration;
import javax.cache.expiry.EternalExpiryPolicy;
import javax.cache.integration.CacheLoader;
import org.junit.jupiter.api.Tag;

/** Configurations: what is asked for is what the cache says of itself. */
@Tag("server")
class ConfigurationTest {
    @Jsr void defaults(Subject on) {
        CompleteConfiguration<?, ?> by = on.cache().getConfiguration(CompleteConfiguration.class);
        same(Long.class, by.getKeyType());
        same(Long.class, by.getValueType());
        yes(by.isStoreByValue());
        no(by.isReadThrough());
        no(by.isWriteThrough());
        no(by.isStatisticsEnabled());
        no(by.isManagementEnabled());
        none(by.getCacheLoaderFactory());
        none(by.getCacheWriterFactory());
        no(by.getCacheEntryListenerConfigurations().iterator().hasNext());
        yes(by.getExpiryPolicyFactory().create() instanceof EternalExpiryPolicy);
    }

    @Jsr void asMuchAsIsAskedFor(Subject on) {
        Cache<Long, Long> cache = on.cache();
        same(Long.class, cache.getConfiguration(Configuration.class).getKeyType());
        same(Long.class, cache.getConfiguration(Configuration.class).getValueType());
        yes(cache.getConfiguration(Configuration.class).isStoreByValue());
        yes(cache.getConfiguration(MutableConfiguration.class) != null);
        thrown(IllegalArgumentException.class, () -> cache.getConfiguration(Foreign.class));
    }

    /** A kind of configuration that no provider knows. */
    private interface Foreign extends Configuration<Long, Long> { }

    @Jsr void theCachesOwnCantBeChanged(Subject on) {
        Cache<Long, Long> cache = on.cache();
        cache.getConfiguration(MutableConfiguration.class).setStatisticsEnabled(true);
        no(cache.getConfiguration(CompleteConfiguration.class).isStatisticsEnabled());
        cache.getConfiguration(MutableConfiguration.class).setReadThrough(true);
        no(cache.getConfiguration(CompleteConfiguration.class).isReadThrough());
    }

    @Jsr void statisticsAndManagement(Subject on) {
        CompleteConfiguration<?, ?> by = on.cache(it -> it.setStatisticsEnabled(true).setManagementEnabled(true)).getConfiguration(CompleteConfiguration.class);
        yes(by.isStatisticsEnabled());
        yes(by.isManagementEnabled());
    }

    @Jsr void loaderAndWriter(Subject on) {
        Factory<CacheLoader<Long, Long>> loader = Loading::new;
        Factory<Writing> writer = Writing::new;
        CompleteConfiguration<?, ?> by = on.cache(it -> it.setReadThrough(true).setCacheLoaderFactory(loader).setWriteThrough(true).setCacheWriterFactory(writer))
            .getConfiguration(CompleteConfiguration.class);
        yes(by.isReadThrough());
        yes(by.isWriteThrough());
        same(loader, by.getCacheLoaderFactory());
        same(writer, by.getCacheWriterFactory());
    }

    @Jsr void listeners(Subject on) {
        var first = new MutableCacheEntryListenerConfiguration<Long, Long>(Hearing::new, null, true, true);
        Cache<Long, Long> cache = on.cache(it -> it.addCacheEntryListenerConfiguration(first));
        same(first, cache.getConfiguration(CompleteConfiguration.class).getCacheEntryListenerConfigurations().iterator().next());
        var second = new MutableCacheEntryListenerConfiguration<Long, Long>(Hearing::new, null, false, true);
        cache.registerCacheEntryListener(second);
        int count = 0;
        for (Object it : cache.getConfiguration(CompleteConfiguration.class).getCacheEntryListenerConfigurations()) {
            yes(it.equals(first) || it.equals(second));
            count++;
        }
        same(2, count);
        cache.deregisterCacheEntryListener(first);
        same(second, cache.getConfiguration(CompleteConfiguration.class).getCacheEntryListenerConfigurations().iterator().next());
        cache.deregisterCacheEntryListener(second);
        no(cache.getConfiguration(CompleteConfiguration.class).getCacheEntryListenerConfigurations().iterator().hasNext());
    }

    @Jsr void aPlainConfiguration(Subject on) {
        Configuration<Long, Long> plain = new Configuration<>() {
            private static final long serialVersionUID = 1L;

            @Override public Class<Long> getKeyType() {
                return Long.class;
            }

            @Override public Class<Long> getValueType() {
                return Long.class;
            }

            @Override public boolean isStoreByValue() {
                return true;
            }
        };
        Cache<Long, Long> cache = on.manager().createCache(on.name(), plain);
        same(Long.class, cache.getConfiguration(Configuration.class).getKeyType());
        cache.put(on.key(1), 1L);
        same(1L, cache.get(on.key(1)));
    }

    @Jsr void mutableConfiguration(Subject on) {
        MutableConfiguration<Long, Long> one = Subject.types(), other = Subject.types();
        same(one, other);
        same(one.hashCode(), other.hashCode());
        same(one, new MutableConfiguration<>(one));
        yes(one.setStatisticsEnabled(true) == one);
        no(one.equals(other));
        other.setStatisticsEnabled(true);
        same(one, other);
        no(one.equals(new MutableConfiguration<Long, Long>()));
        eachThrows(NullPointerException.class, () -> one.setTypes(null, Long.class), () -> one.setTypes(Long.class, null));
        var listener = new MutableCacheEntryListenerConfiguration<Long, Long>(Hearing::new, null, true, true);
        one.addCacheEntryListenerConfiguration(listener);
        thrown(IllegalArgumentException.class, () -> one.addCacheEntryListenerConfiguration(listener));
        thrown(NullPointerException.class, () -> one.addCacheEntryListenerConfiguration(null));
        no(one.equals(other));
        one.removeCacheEntryListenerConfiguration(listener);
        same(one, other);
    }

    @Jsr void durations(Subject on) {
        yes(Duration.ETERNAL.isEternal());
        no(Duration.ETERNAL.isZero());
        yes(Duration.ZERO.isZero());
        no(Duration.ZERO.isEternal());
        same(new Duration(TimeUnit.MINUTES, 1), new Duration(TimeUnit.SECONDS, 60));
        same(Duration.ONE_HOUR, new Duration(TimeUnit.MINUTES, 60));
        same(60_000L, Duration.ONE_MINUTE.getAdjustedTime(0));
        same(Long.MAX_VALUE, Duration.ETERNAL.getAdjustedTime(5));
        same(1_500L, new Duration(TimeUnit.MILLISECONDS, 500).getAdjustedTime(1_000));
        same(new Duration(500, 1_500), new Duration(TimeUnit.MILLISECONDS, 1_000));
        eachThrows(IllegalArgumentException.class, () -> new Duration(TimeUnit.SECONDS, -1), () -> new Duration(TimeUnit.NANOSECONDS, 1),
            () -> new Duration(TimeUnit.MICROSECONDS, 1));
        thrown(NullPointerException.class, () -> new Duration(null, 1));
    }
}
