import java.util.Arrays;
import java.util.HashSet;
import javax.cache.Cache;
import javax.cache.Caching;
import javax.cache.configuration.MutableConfiguration;
import javax.cache.processor.EntryProcessor;
import javax.cache.processor.MutableEntry;

/** Counts page visits with javax.cache alone. The processor runs at the server. */
public class Visits {
    static class Visit implements EntryProcessor<Long, Long, Long> {
        @Override public Long process(MutableEntry<Long, Long> page, Object... arguments) {
            long visits = (page.exists() ? page.getValue() : 0) + 1;
            page.setValue(visits);
            return visits;
        }
    }

    public static void main(String[] arguments) {
        Cache<Long, Long> pages = Caching.getCachingProvider().getCacheManager()
            .createCache("pages", new MutableConfiguration<Long, Long>().setTypes(Long.class, Long.class));
        pages.put(1L, 41L);
        System.out.println("page 1: " + pages.invoke(1L, new Visit()));
        pages.invokeAll(new HashSet<>(Arrays.asList(1L, 2L)), new Visit()).forEach((page, visits) -> System.out.println("page " + page + ": " + visits.get()));
        System.out.println("page 2 is new: " + pages.putIfAbsent(2L, 0L));
        pages.close();
    }
}
