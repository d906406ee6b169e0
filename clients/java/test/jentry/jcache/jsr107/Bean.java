package jentry.jcache.jsr107;

import java.lang.management.ManagementFactory;
import java.util.ArrayList;
import java.util.List;
import javax.cache.Cache;
import javax.management.Attribute;
import javax.management.JMException;
import javax.management.MBeanServer;
import javax.management.ObjectName;

/** A cache's bean in the MBean server of this JVM, by the name that JSR 107 gives it. */
final class Bean {
    private static final MBeanServer BEANS = ManagementFactory.getPlatformMBeanServer();
    private final ObjectName name;

    private Bean(Cache<?, ?> cache, String type) {
        try {
            name = new ObjectName("javax.cache:type=" + type + ",CacheManager=" + clean(cache.getCacheManager().getURI().toString()) + ",Cache="
                + clean(cache.getName()));
        } catch (JMException e) {
            throw new IllegalStateException(e);
        }
    }

    static Bean statistics(Cache<?, ?> cache) {
        return new Bean(cache, "CacheStatistics");
    }

    static Bean configuration(Cache<?, ?> cache) {
        return new Bean(cache, "CacheConfiguration");
    }

    private static String clean(String text) {
        return text.replaceAll("[,:=\n]", ".");
    }

    boolean isThere() {
        return BEANS.isRegistered(name);
    }

    Object get(String attribute) {
        try {
            return BEANS.getAttribute(name, attribute);
        } catch (JMException e) {
            throw new IllegalStateException(e);
        }
    }

    void set(String attribute, Object value) throws JMException {
        BEANS.setAttribute(name, new Attribute(attribute, value));
    }

    void call(String operation) {
        try {
            BEANS.invoke(name, operation, new Object[0], new String[0]);
        } catch (JMException e) {
            throw new IllegalStateException(e);
        }
    }

    /** Returns hits, misses, puts and removals. */
    List<Long> counts() {
        List<Long> counts = new ArrayList<>();
        for (String it : new String[] {"CacheHits", "CacheMisses", "CachePuts", "CacheRemovals"}) {
            counts.add((Long) get(it));
        }
        return counts;
    }
}
