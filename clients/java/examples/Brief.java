import java.util.Collections;
import javax.cache.*;
import javax.cache.configuration.MutableConfiguration;
import javax.cache.processor.*;

public class Brief {
    static class Add implements EntryProcessor<Long, Long, Long> {
        public Long process(MutableEntry<Long, Long> it, Object... more) { it.setValue(it.getValue() + (Long) more[0]); return it.getValue(); }
    }
    public static void main(String[] words) {
        Cache<Long, Long> cache = Caching.getCachingProvider().getCacheManager().createCache("brief", new MutableConfiguration<Long, Long>().setTypes(Long.class, Long.class));
        cache.put(1L, 41L);
        System.out.println(cache.invoke(1L, new Add(), 1L) + " " + cache.invokeAll(Collections.singleton(1L), new Add(), 2L).get(1L).get() + " " + cache.putIfAbsent(1L, 0L));
    }
}
