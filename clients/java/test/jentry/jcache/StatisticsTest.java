package jentry.jcache;

import static org.junit.jupiter.api.Assertions.assertEquals;
import static org.junit.jupiter.api.Assertions.assertFalse;
import static org.junit.jupiter.api.Assertions.assertThrows;
import static org.junit.jupiter.api.Assertions.assertTrue;

import java.lang.management.ManagementFactory;
import java.util.HashSet;
import java.util.List;
import java.util.Map;
import java.util.Set;
import javax.cache.Cache;
import javax.cache.CacheManager;
import javax.cache.management.CacheStatisticsMXBean;
import javax.cache.processor.EntryProcessorException;
import javax.management.JMException;
import javax.management.JMX;
import javax.management.MBeanServer;
import javax.management.ObjectName;
import org.junit.jupiter.api.BeforeEach;
import org.junit.jupiter.api.Test;

/** Tests the beans of a cache, and compares its statistics with counts by hand. */
class StatisticsTest extends OnServer {
    private static final MBeanServer BEANS = ManagementFactory.getPlatformMBeanServer();
    private Cache<Long, Long> counted;
    private CacheStatisticsMXBean told;

    @BeforeEach void create() throws JMException {
        counted = create(Server.types().setStatisticsEnabled(true));
        told = JMX.newMXBeanProxy(BEANS, name("CacheStatistics", counted), CacheStatisticsMXBean.class);
        told.clear();
    }

    private static ObjectName name(String type, Cache<?, ?> of) throws JMException {
        String uri = of.getCacheManager().getURI().toString().replaceAll("[,:=]", ".");
        return new ObjectName("javax.cache:type=" + type + ",CacheManager=" + uri + ",Cache=" + of.getName());
    }

    private void counts(long hits, long misses, long puts, long removals) {
        assertEquals(List.of(hits, misses, puts, removals),
            List.of(told.getCacheHits(), told.getCacheMisses(), told.getCachePuts(), told.getCacheRemovals()));
        assertEquals(hits + misses, told.getCacheGets());
    }

    @Test void lookupsPutsAndRemovals() {
        counted.get(k);
        counts(0, 1, 0, 0);
        counted.put(k, 1L);
        counts(0, 1, 1, 0);
        counted.get(k);
        counts(1, 1, 1, 0);
        counted.containsKey(k);
        counts(1, 1, 1, 0);
        counted.getAndPut(k, 2L);
        counts(2, 1, 2, 0);
        counted.getAndPut(k + 1, 2L);
        counts(2, 2, 3, 0);
        counted.putIfAbsent(k, 3L);
        counts(3, 2, 3, 0);
        counted.putIfAbsent(k + 2, 3L);
        counts(3, 3, 4, 0);
        counted.remove(k + 2);
        counts(3, 3, 4, 1);
        counted.remove(k + 2);
        counts(3, 3, 4, 1);
        counted.getAndRemove(k + 1);
        counts(4, 3, 4, 2);
        counted.getAndRemove(k + 1);
        counts(4, 4, 4, 2);
    }

    @Test void replacements() {
        counted.put(k, 1L);
        counted.replace(k, 2L);
        counts(1, 0, 2, 0);
        counted.replace(k + 1, 2L);
        counts(1, 1, 2, 0);
        counted.getAndReplace(k, 3L);
        counts(2, 1, 3, 0);
        counted.getAndReplace(k + 1, 3L);
        counts(2, 2, 3, 0);
        counted.replace(k, 3L, 4L);
        counts(3, 2, 4, 0);
        counted.remove(k, 4L);
        counts(4, 2, 4, 1);
    }

    @Test void comparisonsThatFail() {
        counted.put(k, 1L);
        counted.replace(k, 5L, 6L);
        counted.remove(k, 5L);
        counts(2, 0, 1, 0);
        counted.replace(k + 1, 5L, 6L);
        counted.remove(k + 1, 5L);
        counts(2, 2, 1, 0);
    }

    @Test void bulkMethods() {
        counted.putAll(Map.of(k, 1L, k + 1, 1L, k + 2, 1L));
        counts(0, 0, 3, 0);
        counted.getAll(Set.of(k, k + 1, k + 7));
        counts(2, 1, 3, 0);
        counted.removeAll(Set.of(k, k + 1, k + 7));
        counts(2, 1, 3, 2);
        assertTrue(told.getAverageGetTime() > 0 && told.getAveragePutTime() > 0 && told.getAverageRemoveTime() > 0);
        assertEquals(200f / 3, told.getCacheHitPercentage(), 0.01);
        assertEquals(100f / 3, told.getCacheMissPercentage(), 0.01);
        assertEquals(0, told.getCacheEvictions());
    }

    @Test void processors() {
        counted.invoke(k, new Sample.Add(), 1L);
        counted.invoke(k, new Sample.Add(), 2L);
        counted.invoke(k, new Sample.Exists());
        counted.invoke(k + 1, new Sample.Exists());
        counted.invoke(k, new Sample.Removes());
        counted.invoke(k, new Sample.Removes());
        assertThrows(EntryProcessorException.class, () -> counted.invoke(k, new Sample.Divides()));
        counts(3, 3, 2, 1);
        counted.invokeAll(Set.of(k, k + 1), new Sample.Add(), 1L);
        counts(3, 5, 4, 1);
    }

    /** Setting the current value again still counts as a put. */
    @Test void aValueThatIsThere() {
        counted.put(k, 5L);
        assertTrue(counted.replace(k, 5L, 5L));
        counts(1, 0, 2, 0);
        counted.replace(k, 5L);
        counted.getAndReplace(k, 5L);
        counted.getAndPut(k, 5L);
        counts(4, 0, 5, 0);
        counted.invoke(k, new Sample.Sets(), 5L);
        counted.invokeAll(Set.of(k), new Sample.Add(), 0L);
        counts(6, 0, 7, 0);
        counted.invoke(k, new Sample.Value());
        counts(7, 0, 7, 0);
    }

    @Test void runsInThisJvmAreCounted() {
        counted.close();
        Cache<Long, Long> local = create(Server.types().setStatisticsEnabled(true), "jentry.local", "true");
        told = bean(local);
        told.clear();
        local.invoke(k, (entry, arguments) -> {
            entry.setValue(1L);
            return null;
        });
        counts(0, 1, 1, 0);
        local.invoke(k, (entry, arguments) -> entry.getValue());
        counts(1, 1, 1, 0);
        local.invoke(k, (entry, arguments) -> {
            entry.remove();
            return null;
        });
        counts(2, 1, 1, 1);
    }

    private static CacheStatisticsMXBean bean(Cache<?, ?> of) {
        try {
            return JMX.newMXBeanProxy(BEANS, name("CacheStatistics", of), CacheStatisticsMXBean.class);
        } catch (JMException e) {
            throw new IllegalStateException(e);
        }
    }

    @Test void beansComeAndGo() throws JMException {
        // On a front both caches have one name, and so one bean.
        counted.close();
        CacheManager manager = server.manager;
        Set<ObjectName> wanted = new HashSet<>();
        assertEquals(wanted, beans());
        manager.enableStatistics("test", true);
        manager.enableManagement("test", true);
        wanted.add(name("CacheStatistics", cache));
        wanted.add(name("CacheConfiguration", cache));
        assertEquals(wanted, beans());
        for (String attribute : List.of("KeyType", "ValueType")) {
            assertEquals("java.lang.Long", BEANS.getAttribute(name("CacheConfiguration", cache), attribute));
        }
        Map<String, Boolean> flags = Map.of("ReadThrough", false, "WriteThrough", false, "StoreByValue", true,
            "StatisticsEnabled", true, "ManagementEnabled", true);
        for (Map.Entry<String, Boolean> it : flags.entrySet()) {
            assertEquals(it.getValue(), BEANS.getAttribute(name("CacheConfiguration", cache), it.getKey()), it.getKey());
        }
        cache.get(k);
        assertEquals(1L, BEANS.getAttribute(name("CacheStatistics", cache), "CacheMisses"));
        manager.enableStatistics("test", false);
        wanted.remove(name("CacheStatistics", cache));
        assertEquals(wanted, beans());
        cache.close();
        assertEquals(Set.of(), beans());
        assertFalse(BEANS.isRegistered(name("CacheConfiguration", cache)));
    }

    @Test void aCacheOfTheSameNameByAnotherManagerTakesNoBeanAway() throws JMException {
        Cache<Long, Long> second = create(Server.types().setStatisticsEnabled(true));
        second.close();
        counted.get(k);
        counts(0, 1, 0, 0);
    }

    private Set<ObjectName> beans() throws JMException {
        return BEANS.queryNames(new ObjectName("javax.cache:*,Cache=test"), null);
    }
}
