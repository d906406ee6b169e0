package jentry.jcache.jsr107;

import static jentry.jcache.jsr107.Expect.eachThrows;
import static jentry.jcache.jsr107.Expect.no;
import static jentry.jcache.jsr107.Expect.none;
import static jentry.jcache.jsr107.Expect.same;
import static jentry.jcache.jsr107.Expect.thrown;
import static jentry.jcache.jsr107.Expect.yes;

import java.util.HashSet;
import java.util.Iterator;
import java.util.Set;
import javax.cache.Cache;
import javax.cache.CacheException;
import javax.cache.CacheManager;
import javax.cache.configuration.CompleteConfiguration;
import javax.cache.configuration.MutableConfiguration;
import org.junit.jupiter.api.Tag;

/** Cache managers: caches by their names. */
@Tag("server")
class ManagerTest {
    private static Set<String> names(CacheManager manager) {
        Set<String> names = new HashSet<>();
        manager.getCacheNames().forEach(names::add);
        return names;
    }

    @Jsr void aCreatedCacheIsFound(Subject on) {
        CacheManager manager = on.manager();
        String name = on.name();
        Cache<Long, Long> cache = manager.createCache(name, Subject.types());
        same(name, cache.getName());
        yes(cache.getCacheManager() == manager);
        no(cache.isClosed());
        yes(cache == manager.<Long, Long>getCache(name));
        yes(manager.getCache(name, Long.class, Long.class) == cache);
        same(Set.of(name), names(manager));
        none(manager.getCache(name + "x"));
        none(manager.getCache(name + "x", Long.class, Long.class));
    }

    @Jsr void aNameIsTakenOnce(Subject on) {
        CacheManager manager = on.manager();
        String name = on.name();
        Cache<Long, Long> cache = manager.createCache(name, Subject.types());
        thrown(CacheException.class, () -> manager.createCache(name, Subject.types()));
        thrown(CacheException.class, () -> manager.createCache(name, Subject.types().setStatisticsEnabled(true)));
        yes(cache == manager.<Long, Long>getCache(name));
        no(cache.isClosed());
        no(cache.getConfiguration(CompleteConfiguration.class).isStatisticsEnabled());
    }

    @Deviates("One cache")
    @Jsr void cachesAreApart(Subject on) {
        CacheManager manager = on.manager();
        String first = on.name(), second = on.name();
        Cache<Long, Long> one = manager.createCache(first, Subject.types()), other = manager.createCache(second, Subject.types());
        same(Set.of(first, second), names(manager));
        one.put(on.key(1), 5L);
        no(other.containsKey(on.key(1)));
        none(other.get(on.key(1)));
        other.put(on.key(1), 6L);
        same(5L, one.get(on.key(1)));
        other.remove(on.key(1));
        same(5L, one.get(on.key(1)));
        other.close();
        same(Set.of(first), names(manager));
        no(one.isClosed());
        same(5L, one.get(on.key(1)));
    }

    @Deviates("One cache")
    @Jsr void equalNamesOfTwoManagersAreTwoCaches(Subject on) {
        CacheManager manager = on.manager(), other = on.manager();
        String name = on.name();
        Cache<Long, Long> one = manager.createCache(name, Subject.types());
        none(other.getCache(name));
        Cache<Long, Long> two = other.createCache(name + "b", Subject.types());
        yes(one != two);
        yes(two.getCacheManager() == other);
        none(manager.getCache(name + "b"));
    }

    @Jsr void aDestroyedCacheIsClosedAndItsNameFree(Subject on) {
        CacheManager manager = on.manager();
        String name = on.name();
        Cache<Long, Long> cache = manager.createCache(name, Subject.types());
        manager.destroyCache(name);
        yes(cache.isClosed());
        none(manager.getCache(name));
        same(Set.of(), names(manager));
        manager.destroyCache(name);
        manager.destroyCache(name + "x");
        Cache<Long, Long> again = manager.createCache(name, Subject.types());
        yes(again != cache);
        no(again.isClosed());
        yes(cache.isClosed());
        yes(again == manager.<Long, Long>getCache(name));
    }

    @Deviates("One cache")
    @Jsr void aDestroyedCacheHasLostItsEntries(Subject on) {
        CacheManager manager = on.manager();
        String name = on.name();
        Cache<Long, Long> cache = manager.createCache(name, Subject.types());
        cache.put(on.key(1), 5L);
        manager.destroyCache(name);
        Cache<Long, Long> again = manager.createCache(name, Subject.types());
        none(again.get(on.key(1)));
    }

    @Jsr void aClosedCacheIsForgotten(Subject on) {
        CacheManager manager = on.manager();
        String name = on.name();
        Cache<Long, Long> cache = manager.createCache(name, Subject.types());
        cache.close();
        none(manager.getCache(name));
        same(Set.of(), names(manager));
        Cache<Long, Long> again = manager.createCache(name, Subject.types());
        no(again.isClosed());
        same(Set.of(name), names(manager));
    }

    @Jsr void namesCantBeRemovedThroughTheirIterator(Subject on) {
        CacheManager manager = on.manager();
        String name = on.name();
        manager.createCache(name, Subject.types());
        Iterator<String> names = manager.getCacheNames().iterator();
        same(name, names.next());
        thrown(UnsupportedOperationException.class, names::remove);
        yes(manager.getCache(name) != null);
        no(manager.getCacheNames().iterator().next().isEmpty());
    }

    @Jsr void otherTypesThanThoseOfTheCache(Subject on) {
        CacheManager manager = on.manager();
        String name = on.name();
        manager.createCache(name, Subject.types());
        eachThrows(ClassCastException.class, () -> manager.getCache(name, String.class, Long.class), () -> manager.getCache(name, Long.class, Integer.class),
            () -> manager.getCache(name, Object.class, Object.class), () -> manager.getCache(name, Long.class, Number.class));
        yes(manager.getCache(name, Long.class, Long.class) != null);
    }

    @Jsr void nulls(Subject on) {
        CacheManager manager = on.manager();
        String name = on.name();
        manager.createCache(name, Subject.types());
        eachThrows(NullPointerException.class, () -> manager.getCache(null), () -> manager.getCache(null, Long.class, Long.class),
            () -> manager.getCache(name, null, Long.class), () -> manager.getCache(name, Long.class, null), () -> manager.createCache(null, Subject.types()),
            () -> manager.createCache(name + "x", null), () -> manager.destroyCache(null), () -> manager.enableManagement(null, true),
            () -> manager.enableStatistics(null, true));
        same(Set.of(name), names(manager));
    }

    @Jsr void aConfigurationThatLacksItsLoaderOrWriter(Subject on) {
        CacheManager manager = on.manager();
        String name = on.name();
        eachThrows(IllegalArgumentException.class, () -> manager.createCache(name, Subject.types().setReadThrough(true)),
            () -> manager.createCache(name, Subject.types().setWriteThrough(true)));
        none(manager.getCache(name));
        yes(manager.createCache(name, Subject.types()) != null);
    }

    @Jsr void storeByReferenceIsOptional(Subject on) {
        CacheManager manager = on.manager();
        String name = on.name();
        thrown(UnsupportedOperationException.class, () -> manager.createCache(name, Subject.types().setStoreByValue(false)));
        none(manager.getCache(name));
    }

    @Jsr void statisticsAndManagementByTheManager(Subject on) {
        CacheManager manager = on.manager();
        String name = on.name();
        Cache<Long, Long> cache = manager.createCache(name, Subject.types());
        manager.enableStatistics(name, true);
        manager.enableManagement(name, true);
        CompleteConfiguration<?, ?> by = cache.getConfiguration(CompleteConfiguration.class);
        yes(by.isStatisticsEnabled());
        yes(by.isManagementEnabled());
        manager.enableStatistics(name, true);
        manager.enableStatistics(name, false);
        manager.enableManagement(name, false);
        by = cache.getConfiguration(CompleteConfiguration.class);
        no(by.isStatisticsEnabled());
        no(by.isManagementEnabled());
    }

    @Jsr void aClosedManager(Subject on) {
        CacheManager manager = on.manager();
        String name = on.name();
        Cache<Long, Long> cache = manager.createCache(name, Subject.types());
        manager.close();
        manager.close();
        yes(manager.isClosed());
        yes(cache.isClosed());
        eachThrows(IllegalStateException.class, () -> manager.getCache(name), () -> manager.getCache(name, Long.class, Long.class), manager::getCacheNames,
            () -> manager.createCache(name, Subject.types()), () -> manager.destroyCache(name), () -> manager.enableStatistics(name, true),
            () -> manager.enableManagement(name, true));
        same(on.uri(), manager.getURI());
        yes(manager.getCachingProvider() == on.provider());
    }

    @Jsr void theConfigurationIsCopied(Subject on) {
        MutableConfiguration<Long, Long> wanted = Subject.types();
        CacheManager manager = on.manager();
        Cache<Long, Long> cache = manager.createCache(on.name(), wanted);
        wanted.setStatisticsEnabled(true).setManagementEnabled(true);
        CompleteConfiguration<?, ?> by = cache.getConfiguration(CompleteConfiguration.class);
        no(by.isStatisticsEnabled());
        no(by.isManagementEnabled());
    }
}
