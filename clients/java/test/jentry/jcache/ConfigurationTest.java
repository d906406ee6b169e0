package jentry.jcache;

import static org.junit.jupiter.api.Assertions.assertEquals;
import static org.junit.jupiter.api.Assertions.assertFalse;
import static org.junit.jupiter.api.Assertions.assertNotSame;
import static org.junit.jupiter.api.Assertions.assertNull;
import static org.junit.jupiter.api.Assertions.assertThrows;
import static org.junit.jupiter.api.Assertions.assertTrue;
import static org.junit.jupiter.api.Assumptions.assumeFalse;

import java.util.List;
import javax.cache.Cache;
import javax.cache.CacheManager;
import javax.cache.configuration.CompleteConfiguration;
import javax.cache.configuration.Configuration;
import javax.cache.configuration.Factory;
import javax.cache.configuration.MutableConfiguration;
import javax.cache.expiry.AccessedExpiryPolicy;
import javax.cache.expiry.CreatedExpiryPolicy;
import javax.cache.expiry.Duration;
import javax.cache.expiry.EternalExpiryPolicy;
import javax.cache.expiry.ExpiryPolicy;
import javax.cache.expiry.ModifiedExpiryPolicy;
import javax.cache.expiry.TouchedExpiryPolicy;
import org.junit.jupiter.api.BeforeEach;
import org.junit.jupiter.api.Test;

/** Tests which configurations are accepted, and what a cache reports about its own, on the real server. */
class ConfigurationTest extends OnServer {
    private CacheManager manager;

    @BeforeEach void find() {
        manager = server.manager;
    }

    private void refused(String what, MutableConfiguration<Long, Long> wanted) {
        String message = assertThrows(UnsupportedOperationException.class, () -> create(wanted)).getMessage();
        assertTrue(message.startsWith(what), message);
    }

    @Test void whatAConfigurationCannotHave() {
        refused("store by reference", Server.types().setStoreByValue(false));
        for (var wanted : List.of(Server.types().setReadThrough(true), Server.types().setWriteThrough(true))) {
            assertThrows(IllegalArgumentException.class, () -> manager.createCache("a", wanted));
            assertNull(manager.getCache("a"));
        }
    }

    @Test void expiryWhereTheServerHasNone() {
        assumeFalse(Server.isRedis());
        for (Factory<? extends ExpiryPolicy> expiry : List.of(CreatedExpiryPolicy.factoryOf(Duration.ONE_DAY), AccessedExpiryPolicy.factoryOf(Duration.ONE_DAY),
            ModifiedExpiryPolicy.factoryOf(Duration.ONE_DAY), TouchedExpiryPolicy.factoryOf(Duration.ZERO))) {
            refused("expiry", Server.types().setExpiryPolicyFactory(expiry));
        }
    }

    @Test void whatAConfigurationMayHave() {
        assumeFalse(Server.isFront(), "a front has one cache");
        manager.createCache("eternal", Server.types().setExpiryPolicyFactory(EternalExpiryPolicy.factoryOf()));
        manager.createCache("short", new Configuration<Long, Long>() {
            private static final long serialVersionUID = 1L;

            @Override public Class<Long> getKeyType() {
                return Long.class;
            }

            @Override public Class<Long> getValueType() {
                return Long.class;
            }

            @Override public boolean isStoreByValue() {
                return true;
            }
        });
        assertEquals(Long.class, manager.getCache("short", Long.class, Long.class).getConfiguration(Configuration.class).getKeyType());
    }

    @Test void theConfigurationIsACopy() {
        MutableConfiguration<Long, Long> wanted = Server.types();
        Cache<Long, Long> made = create(wanted);
        wanted.setStatisticsEnabled(true).setStoreByValue(false);
        CompleteConfiguration<?, ?> told = made.getConfiguration(CompleteConfiguration.class);
        assertEquals(Server.types(), told);
        assertFalse(told.isStatisticsEnabled());
        assertTrue(told.isStoreByValue());
        assertNotSame(told, made.getConfiguration(CompleteConfiguration.class));
    }

    @Test void whatTheConfigurationSays() {
        CompleteConfiguration<?, ?> told = cache.getConfiguration(CompleteConfiguration.class);
        assertEquals(Long.class, told.getKeyType());
        assertEquals(Long.class, told.getValueType());
        assertTrue(told.getExpiryPolicyFactory().create() instanceof EternalExpiryPolicy);
        assertTrue(told.isStoreByValue());
        for (boolean it : new boolean[] {told.isReadThrough(), told.isWriteThrough(), told.isStatisticsEnabled(), told.isManagementEnabled()}) {
            assertFalse(it);
        }
        assertNull(told.getCacheLoaderFactory());
        assertNull(told.getCacheWriterFactory());
        assertFalse(told.getCacheEntryListenerConfigurations().iterator().hasNext());
    }

    /** A configuration type that the provider doesn't support. */
    private interface Another extends Configuration<Long, Long> { }

    @Test void aConfigurationOfAnotherKind() {
        assertThrows(IllegalArgumentException.class, () -> cache.getConfiguration(Another.class));
        assertEquals(Long.class, cache.getConfiguration(Configuration.class).getKeyType());
    }
}
