package jentry.jcache.jsr107.reference;

import java.lang.management.ManagementFactory;
import javax.cache.Cache;
import javax.cache.configuration.CompleteConfiguration;
import javax.cache.management.CacheMXBean;
import javax.management.JMException;
import javax.management.MBeanServer;
import javax.management.ObjectName;

/** The beans of a cache, by the names that JSR 107 gives them. */
final class Beans {
    private Beans() { }

    /** What a cache's configuration says. */
    public record Configured(CompleteConfiguration<?, ?> of) implements CacheMXBean {
        @Override public String getKeyType() {
            return of.getKeyType().getName();
        }

        @Override public String getValueType() {
            return of.getValueType().getName();
        }

        @Override public boolean isReadThrough() {
            return of.isReadThrough();
        }

        @Override public boolean isWriteThrough() {
            return of.isWriteThrough();
        }

        @Override public boolean isStoreByValue() {
            return of.isStoreByValue();
        }

        @Override public boolean isStatisticsEnabled() {
            return of.isStatisticsEnabled();
        }

        @Override public boolean isManagementEnabled() {
            return of.isManagementEnabled();
        }
    }

    static void set(Cache<?, ?> cache, String type, Object bean, boolean wanted) {
        try {
            MBeanServer server = ManagementFactory.getPlatformMBeanServer();
            ObjectName name = new ObjectName("javax.cache:type=" + type + ",CacheManager=" + clean(cache.getCacheManager().getURI().toString())
                + ",Cache=" + clean(cache.getName()));
            if (wanted && !server.isRegistered(name)) {
                server.registerMBean(bean, name);
            } else if (!wanted && server.isRegistered(name)) {
                server.unregisterMBean(name);
            }
        } catch (JMException e) {
            throw new IllegalStateException(e);
        }
    }

    private static String clean(String text) {
        return text.replaceAll("[,:=\n]", ".");
    }
}
