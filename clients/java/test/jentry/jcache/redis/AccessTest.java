package jentry.jcache.redis;

import static org.junit.jupiter.api.Assertions.assertEquals;
import static org.junit.jupiter.api.Assertions.assertNull;

import java.util.Map;
import java.util.Set;
import java.util.concurrent.TimeUnit;
import javax.cache.Cache;
import javax.cache.configuration.Factory;
import javax.cache.configuration.MutableConfiguration;
import javax.cache.expiry.AccessedExpiryPolicy;
import javax.cache.expiry.CreatedExpiryPolicy;
import javax.cache.expiry.Duration;
import javax.cache.expiry.ExpiryPolicy;
import javax.cache.expiry.TouchedExpiryPolicy;
import javax.cache.processor.EntryProcessor;
import jentry.jcache.JentryCache;
import jentry.jcache.Renewing;
import org.junit.jupiter.api.Test;

/** Tests which runs of a processor are an access that gives the entry a new time to live. Each entry starts with half an hour, and an access sets an hour. */
class AccessTest extends WithStandInModule {
    private static final long HALF = TimeUnit.MINUTES.toMillis(30);
    private static final EntryProcessor<Long, Long, Object> READS_AT_ZERO = new Renewing.ReadsAtZero();
    private static final Map<String, Runs> WAYS = Map.of("invoke", (cache, argument) -> cache.invoke(1L, READS_AT_ZERO, argument),
        "invokeAll", (cache, argument) -> cache.invokeAll(Set.of(1L), READS_AT_ZERO, argument).get(1L).get(),
        "invokeAsync", (cache, argument) -> cache.unwrap(JentryCache.class).invokeAsync(1L, READS_AT_ZERO, argument).join());

    private interface Runs {
        Object on(Cache<Long, Long> cache, long argument);
    }

    private Cache<Long, Long> cache(Factory<? extends ExpiryPolicy> by) {
        return manager().createCache("test", new MutableConfiguration<Long, Long>().setTypes(Long.class, Long.class).setExpiryPolicyFactory(by));
    }

    private String timeLeft() {
        long left = (Long) server.ask("PTTL", "app:test:1");
        return left == -2 ? "gone" : left == -1 ? "eternal" : left > HALF ? "hour" : "half";
    }

    private void runs(Cache<Long, Long> cache, String behindRead, String behindOther) {
        WAYS.forEach((name, way) -> {
            server.ask("SET", "app:test:1", 5, "PX", HALF);
            assertEquals(7L, way.on(cache, 7), name);
            assertEquals(behindOther, timeLeft(), name);
            assertEquals(5L, way.on(cache, 0), name);
            assertEquals(behindRead, timeLeft(), name);
        });
    }

    @Test void aRunThatReadsIsAnAccessAndAnotherIsNone() {
        runs(cache(TouchedExpiryPolicy.factoryOf(Duration.ONE_HOUR)), "hour", "half");
        runs(cache(AccessedExpiryPolicy.factoryOf(Duration.ZERO)), "gone", "half");
        runs(cache(AccessedExpiryPolicy.factoryOf(Duration.ETERNAL)), "eternal", "half");
        runs(cache(CreatedExpiryPolicy.factoryOf(Duration.ONE_HOUR)), "half", "half");
        runs(cache(() -> new Own(Duration.ONE_HOUR)), "hour", "half");
    }

    /** A policy that the provider doesn't know. */
    private record Own(Duration accessed) implements ExpiryPolicy {
        @Override public Duration getExpiryForCreation() {
            return Duration.ETERNAL;
        }

        @Override public Duration getExpiryForAccess() {
            return accessed;
        }

        @Override public Duration getExpiryForUpdate() {
            return null;
        }
    }

    @Test void anAbsentEntryStaysAbsent() {
        Cache<Long, Long> cache = cache(TouchedExpiryPolicy.factoryOf(Duration.ONE_HOUR));
        assertNull(cache.invoke(1L, READS_AT_ZERO, 0L));
        assertEquals("gone", timeLeft());
    }
}
