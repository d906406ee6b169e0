package jentry.jcache.jsr107;

import static jentry.jcache.jsr107.Expect.no;
import static jentry.jcache.jsr107.Expect.same;
import static jentry.jcache.jsr107.Expect.thrown;
import static jentry.jcache.jsr107.Expect.yes;

import javax.cache.Cache;
import javax.cache.CacheManager;
import javax.cache.configuration.Configuration;
import javax.cache.configuration.MutableConfiguration;
import org.junit.jupiter.api.Tag;

/** The types of keys and values. */
@Tag("server")
class TypesTest {
    @Deviates("Types")
    @Jsr void texts(Subject on) {
        CacheManager manager = on.manager();
        String name = on.name();
        Cache<String, String> cache = manager.createCache(name, new MutableConfiguration<String, String>().setTypes(String.class, String.class));
        cache.put("a", "b");
        same("b", cache.get("a"));
        same("b", manager.getCache(name, String.class, String.class).getAndRemove("a"));
        thrown(ClassCastException.class, () -> manager.getCache(name, Long.class, Long.class));
    }

    @Deviates("Types")
    @Jsr void integersAndLongs(Subject on) {
        Cache<Integer, Long> cache = on.manager().createCache(on.name(), new MutableConfiguration<Integer, Long>().setTypes(Integer.class, Long.class));
        cache.put(1, 2L);
        same(2L, cache.get(1));
        yes(cache.containsKey(1));
    }

    @Deviates("Types")
    @Jsr void objects(Subject on) {
        Cache<Object, Object> cache = on.manager().createCache(on.name(), new MutableConfiguration<>());
        cache.put(1, "a");
        same("a", cache.get(1));
        same(Object.class, cache.getConfiguration(Configuration.class).getKeyType());
    }

    @Jsr void longs(Subject on) {
        CacheManager manager = on.manager();
        String name = on.name();
        Cache<Long, Long> cache = manager.createCache(name, Subject.types());
        same(Long.class, cache.getConfiguration(Configuration.class).getKeyType());
        same(Long.class, cache.getConfiguration(Configuration.class).getValueType());
        yes(manager.getCache(name, Long.class, Long.class) == cache);
        Cache<Long, Long> raw = manager.getCache(name);
        yes(raw == cache);
        raw.put(on.key(0), 1L);
        same(Long.class, cache.get(on.key(0)).getClass());
        thrown(ClassCastException.class, () -> manager.getCache(name, String.class, String.class));
        no(cache.isClosed());
    }
}
