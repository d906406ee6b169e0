import java.net.URI;
import javax.cache.Cache;
import javax.cache.CacheManager;
import javax.cache.Caching;
import javax.cache.configuration.MutableConfiguration;
import javax.cache.processor.EntryProcessor;

/** Invokes a class of examples by the JCache provider on the class path, and prints what it gets. `Caller URI Reserve|Withdraw`. */
public final class Caller {
    private interface Work {
        Object on(Cache<Long, Long> cache);
    }

    private Caller() { }

    private static void print(Cache<Long, Long> cache, Work work) {
        try {
            System.out.println(work.on(cache));
        } catch (RuntimeException e) {
            System.out.println(e.getClass().getSimpleName() + ": " + e.getMessage());
        }
    }

    private static void print(Cache<Long, Long> cache, EntryProcessor<Long, Long, ?> processor, Object... arguments) {
        print(cache, it -> it.invoke(7L, processor, arguments));
    }

    /**
     * Puts 41 on the key 7, invokes the class twice, and gets the entry. Reserve returns a Boolean, its first call has one as argument, and the entry
     * is got by a second cache, too; Withdraw throws in its second call.
     */
    public static void main(String[] words) {
        CacheManager manager = Caching.getCachingProvider().getCacheManager(URI.create(words[0]), null);
        MutableConfiguration<Long, Long> types = new MutableConfiguration<Long, Long>().setTypes(Long.class, Long.class);
        Cache<Long, Long> cache = manager.createCache("one", types);
        cache.put(7L, 41L);
        if (words[1].equals("Reserve")) {
            print(cache, new Reserve(), 40L, true);
            print(cache, new Reserve(), 40L);
            print(cache, it -> it.get(7L));
            print(manager.createCache("other", types), it -> it.get(7L));
        } else {
            print(cache, new Withdraw(), 40L);
            print(cache, new Withdraw(), 40L);
            print(cache, it -> it.get(7L));
        }
        manager.close();
    }
}
