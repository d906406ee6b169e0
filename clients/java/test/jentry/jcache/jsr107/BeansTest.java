package jentry.jcache.jsr107;

import static jentry.jcache.jsr107.Expect.eachThrows;
import static jentry.jcache.jsr107.Expect.no;
import static jentry.jcache.jsr107.Expect.same;
import static jentry.jcache.jsr107.Expect.yes;

import javax.cache.Cache;
import javax.management.AttributeNotFoundException;
import org.junit.jupiter.api.Tag;

/** The beans for management: when they are registered, and what they say. */
@Tag("server")
class BeansTest {
    @Jsr void thereIsNoneByDefault(Subject on) {
        Cache<Long, Long> cache = on.cache();
        no(Bean.statistics(cache).isThere());
        no(Bean.configuration(cache).isThere());
    }

    @Jsr void byTheConfiguration(Subject on) {
        Cache<Long, Long> cache = on.cache(it -> it.setStatisticsEnabled(true).setManagementEnabled(true));
        yes(Bean.statistics(cache).isThere());
        yes(Bean.configuration(cache).isThere());
        cache.close();
        no(Bean.statistics(cache).isThere());
        no(Bean.configuration(cache).isThere());
    }

    @Jsr void byTheManager(Subject on) {
        Cache<Long, Long> cache = on.cache();
        cache.getCacheManager().enableManagement(cache.getName(), true);
        yes(Bean.configuration(cache).isThere());
        no(Bean.statistics(cache).isThere());
        cache.getCacheManager().enableStatistics(cache.getName(), true);
        yes(Bean.statistics(cache).isThere());
        cache.getCacheManager().enableManagement(cache.getName(), true);
        yes(Bean.configuration(cache).isThere());
        cache.getCacheManager().enableManagement(cache.getName(), false);
        no(Bean.configuration(cache).isThere());
        yes(Bean.statistics(cache).isThere());
        cache.getCacheManager().enableStatistics(cache.getName(), false);
        no(Bean.statistics(cache).isThere());
        cache.getCacheManager().enableStatistics(cache.getName(), false);
        no(Bean.statistics(cache).isThere());
    }

    @Jsr void theConfigurationBean(Subject on) {
        Bean bean = Bean.configuration(on.cache(it -> it.setManagementEnabled(true).setReadThrough(true).setCacheLoaderFactory(Loading::new)));
        same("java.lang.Long", bean.get("KeyType"));
        same("java.lang.Long", bean.get("ValueType"));
        same(true, bean.get("ReadThrough"));
        same(false, bean.get("WriteThrough"));
        same(true, bean.get("StoreByValue"));
        same(true, bean.get("ManagementEnabled"));
        same(false, bean.get("StatisticsEnabled"));
        eachThrows(AttributeNotFoundException.class, () -> bean.set("ReadThrough", false), () -> bean.set("StatisticsEnabled", true));
    }

    @Jsr void itFollowsTheManager(Subject on) {
        Cache<Long, Long> cache = on.cache(it -> it.setManagementEnabled(true));
        Bean bean = Bean.configuration(cache);
        same(false, bean.get("StatisticsEnabled"));
        cache.getCacheManager().enableStatistics(cache.getName(), true);
        same(true, bean.get("StatisticsEnabled"));
        cache.getCacheManager().enableStatistics(cache.getName(), false);
        same(false, bean.get("StatisticsEnabled"));
    }

    @Jsr void aDestroyedCache(Subject on) {
        Cache<Long, Long> cache = on.cache(it -> it.setManagementEnabled(true).setStatisticsEnabled(true));
        Bean statistics = Bean.statistics(cache), configuration = Bean.configuration(cache);
        yes(statistics.isThere());
        cache.getCacheManager().destroyCache(cache.getName());
        no(statistics.isThere());
        no(configuration.isThere());
    }

    @Jsr void aClosedManager(Subject on) {
        Cache<Long, Long> cache = on.cache(it -> it.setManagementEnabled(true).setStatisticsEnabled(true));
        Bean statistics = Bean.statistics(cache), configuration = Bean.configuration(cache);
        yes(configuration.isThere());
        cache.getCacheManager().close();
        no(statistics.isThere());
        no(configuration.isThere());
    }
}
