package jentry.jcache.impl;

import java.lang.management.ManagementFactory;
import java.util.HashSet;
import java.util.Set;
import javax.cache.Cache;
import javax.cache.CacheException;
import javax.cache.CacheManager;
import javax.cache.configuration.CompleteConfiguration;
import javax.cache.management.CacheMXBean;
import javax.management.JMException;
import javax.management.MBeanServer;
import javax.management.ObjectName;

/**
 * A cache's beans in the JVM's MBean server, under the names that JCache defines. Two caches of the same name from
 * managers of the same URI have the same bean names; the first one to register a bean owns it.
 */
final class CacheBeans {
    private final Cache<?, ?> cache;
    private final Set<String> registered = new HashSet<>();

    CacheBeans(Cache<?, ?> cache) {
        this.cache = cache;
    }

    /** The current configuration of a cache. */
    public record Configured(CompleteConfiguration<?, ?> of) implements CacheMXBean {
        @Override public String getKeyType() {
            return of.getKeyType().getName();
        }

        @Override public String getValueType() {
            return of.getValueType().getName();
        }

        @Override public boolean isReadThrough() {
            return of.isReadThrough();
        }

        @Override public boolean isWriteThrough() {
            return of.isWriteThrough();
        }

        @Override public boolean isStoreByValue() {
            return of.isStoreByValue();
        }

        @Override public boolean isStatisticsEnabled() {
            return of.isStatisticsEnabled();
        }

        @Override public boolean isManagementEnabled() {
            return of.isManagementEnabled();
        }
    }

    private ObjectName name(String type) throws JMException {
        CacheManager manager = cache.getCacheManager();
        return new ObjectName("javax.cache:type=" + type + ",CacheManager=" + clean(manager.getURI().toString())
            + ",Cache=" + clean(cache.getName()));
    }

    /** Replaces the characters that have a meaning in the name of a bean. */
    private static String clean(String text) {
        return text.replaceAll("[,:=\r\n*?\"]", ".");
    }

    /** Registers a bean if it is wanted, else unregisters it. */
    synchronized void set(String type, Object bean, boolean wanted) {
        try {
            MBeanServer server = ManagementFactory.getPlatformMBeanServer();
            ObjectName name = name(type);
            if (wanted && !server.isRegistered(name)) {
                server.registerMBean(bean, name);
                registered.add(type);
            } else if (!wanted && registered.remove(type)) {
                server.unregisterMBean(name);
            }
        } catch (JMException e) {
            throw new CacheException("the bean " + type + " of " + cache.getName() + " can't be set", e);
        }
    }
}
