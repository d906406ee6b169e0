package jentry.jcache.jsr107;

import static jentry.jcache.jsr107.Expect.no;
import static jentry.jcache.jsr107.Expect.none;
import static jentry.jcache.jsr107.Expect.same;
import static jentry.jcache.jsr107.Expect.thrown;
import static jentry.jcache.jsr107.Expect.yes;

import java.util.List;
import java.util.Map;
import java.util.Set;
import javax.cache.Cache;
import javax.cache.integration.CacheWriterException;
import org.junit.jupiter.api.Tag;

/** Writers: which methods write through, and that a writer that throws prevents the change. */
@Tag("server")
class WriterTest {
    private final Writing writing = new Writing();

    private Cache<Long, Long> cache(Subject on) {
        return on.cache(it -> it.setWriteThrough(true).setCacheWriterFactory(() -> writing));
    }

    private void called(String... wanted) {
        same(List.of(wanted), writing.called());
    }

    @Jsr void putsAndReplaces(Subject on) {
        Cache<Long, Long> cache = cache(on);
        long k = on.key(0);
        cache.put(k, 1L);
        called("write 1");
        none(cache.getAndPut(on.key(1), 2L));
        called("write 2");
        yes(cache.putIfAbsent(on.key(2), 3L));
        called("write 3");
        no(cache.putIfAbsent(k, 4L));
        called();
        yes(cache.replace(k, 5L));
        called("write 5");
        no(cache.replace(on.key(7), 5L));
        called();
        yes(cache.replace(k, 5L, 6L));
        called("write 6");
        no(cache.replace(k, 5L, 7L));
        called();
        same(6L, cache.getAndReplace(k, 8L));
        called("write 8");
        none(cache.getAndReplace(on.key(7), 8L));
        called();
        same(Map.of(k, 8L, on.key(1), 2L, on.key(2), 3L), writing.written);
        same(writing.written, cache.getAll(on.keys(8)));
    }

    @Jsr void removals(Subject on) {
        Cache<Long, Long> cache = cache(on);
        long k = on.key(0);
        cache.put(k, 1L);
        called("write 1");
        yes(cache.remove(k));
        called("delete");
        no(cache.remove(k));
        called("delete");
        cache.put(k, 1L);
        same(1L, cache.getAndRemove(k));
        called("write 1", "delete");
        none(cache.getAndRemove(k));
        called("delete");
        cache.put(k, 1L);
        no(cache.remove(k, 2L));
        called("write 1");
        yes(cache.remove(k, 1L));
        called("delete");
        no(cache.remove(k, 1L));
        called();
        same(Map.of(), writing.written);
    }

    @Jsr void readsDontWrite(Subject on) {
        Cache<Long, Long> cache = cache(on);
        cache.put(on.key(0), 1L);
        called("write 1");
        cache.get(on.key(0));
        cache.containsKey(on.key(0));
        cache.getAll(on.keys(2));
        cache.loadAll(on.keys(2), true, null);
        called();
    }

    @Jsr void bulkMethods(Subject on) {
        Cache<Long, Long> cache = cache(on);
        cache.putAll(Map.of(on.key(0), 1L, on.key(1), 2L));
        called("writeAll 2");
        same(Map.of(on.key(0), 1L, on.key(1), 2L), writing.written);
        cache.removeAll(Set.of(on.key(0), on.key(5)));
        called("deleteAll 2");
        same(Map.of(on.key(1), 2L), writing.written);
        same(Map.of(on.key(1), 2L), cache.getAll(on.keys(6)));
    }

    @Deviates("Keys")
    @Jsr void removeAllWritesAndClearDoesnt(Subject on) {
        Cache<Long, Long> cache = cache(on);
        cache.putAll(Map.of(on.key(0), 1L, on.key(1), 2L));
        called("writeAll 2");
        cache.clear();
        called();
        same(2, writing.written.size());
        cache.putAll(Map.of(on.key(0), 1L, on.key(1), 2L));
        called("writeAll 2");
        none(cache.invoke(on.key(5), new Processors.Value()));
        writing.written.put(on.key(5), 6L);
        cache.removeAll();
        same(6L, writing.written.remove(on.key(5)));
        same(Map.of(), writing.written);
        same(2, writing.called().stream().mapToInt(it -> Integer.parseInt(it.split("deleteAll ")[1])).sum());
        cache.put(on.key(0), 3L);
        called("write 3");
        var entries = cache.iterator();
        entries.next();
        entries.remove();
        called("delete");
    }

    @Jsr void aWriterThatThrowsPreventsTheChange(Subject on) {
        Cache<Long, Long> cache = cache(on);
        long k = on.key(0);
        Throwable thrown = thrown(CacheWriterException.class, () -> cache.put(k, Writing.REFUSED));
        same("unwilling", thrown.getCause().getMessage());
        no(cache.containsKey(k));
        cache.put(k, 1L);
        thrown(CacheWriterException.class, () -> cache.put(k, Writing.REFUSED));
        thrown(CacheWriterException.class, () -> cache.getAndPut(k, Writing.REFUSED));
        thrown(CacheWriterException.class, () -> cache.replace(k, Writing.REFUSED));
        thrown(CacheWriterException.class, () -> cache.replace(k, 1L, Writing.REFUSED));
        thrown(CacheWriterException.class, () -> cache.getAndReplace(k, Writing.REFUSED));
        thrown(CacheWriterException.class, () -> cache.putIfAbsent(on.key(1), Writing.REFUSED));
        same(Map.of(k, 1L), cache.getAll(on.keys(2)));
        writing.written.put(k, Writing.UNDELETABLE);
        thrown(CacheWriterException.class, () -> cache.remove(k));
        thrown(CacheWriterException.class, () -> cache.remove(k, 1L));
        thrown(CacheWriterException.class, () -> cache.getAndRemove(k));
        same(1L, cache.get(k));
    }

    @Jsr void bulkMethodsDoWhatTheWriterHasDone(Subject on) {
        Cache<Long, Long> cache = cache(on);
        thrown(CacheWriterException.class, () -> cache.putAll(Map.of(on.key(0), 1L, on.key(1), Writing.REFUSED, on.key(2), 3L)));
        same(Map.of(on.key(0), 1L, on.key(2), 3L), cache.getAll(on.keys(3)));
        writing.written.put(on.key(2), Writing.UNDELETABLE);
        thrown(CacheWriterException.class, () -> cache.removeAll(on.keys(3)));
        same(Map.of(on.key(2), 3L), cache.getAll(on.keys(3)));
    }

    @Jsr void processors(Subject on) {
        Cache<Long, Long> cache = cache(on);
        long k = on.key(0);
        cache.invoke(k, new Processors.Sets(), 1L);
        called("write 1");
        cache.invoke(k, new Processors.Value());
        cache.invoke(k, new Processors.Exists());
        called();
        cache.invoke(k, new Processors.SetsTwice(), 2L, 3L);
        called("write 3");
        cache.invoke(k, new Processors.Sets(), 3L);
        called("write 3");
        thrown(CacheWriterException.class, () -> cache.invoke(k, new Processors.Sets(), Writing.REFUSED));
        called("write -1");
        same(3L, cache.get(k));
        cache.invoke(k, new Processors.RemovesAndSets(), 4L);
        called("write 4");
        cache.invoke(k, new Processors.SetsAndRemoves(), 5L);
        called("delete");
        no(cache.containsKey(k));
        same(Map.of(), writing.written);
    }

    @Jsr void aProcessorThatRemovesAnAbsentEntry(Subject on) {
        Cache<Long, Long> cache = cache(on);
        cache.invoke(on.key(0), new Processors.Removes());
        called("delete");
        cache.invoke(on.key(0), new Processors.SetsAndRemoves(), 5L);
        called();
        cache.invoke(on.key(0), new Processors.Nothing());
        called();
        no(cache.containsKey(on.key(0)));
    }

    @Jsr void invokeAllWritesEachEntry(Subject on) {
        Cache<Long, Long> cache = cache(on);
        cache.put(on.key(0), 5L);
        called("write 5");
        cache.invokeAll(on.keys(2), new Processors.Adds(), 1L);
        same(Set.of("write 6", "write 1"), Set.copyOf(writing.called()));
        same(Map.of(on.key(0), 6L, on.key(1), 1L), writing.written);
        same(writing.written, cache.getAll(on.keys(2)));
    }

    @Jsr void withoutWriteThroughAWriterIsIdle(Subject on) {
        Cache<Long, Long> cache = on.cache(it -> it.setWriteThrough(false).setCacheWriterFactory(() -> writing));
        cache.put(on.key(0), 1L);
        cache.remove(on.key(0));
        cache.putAll(Map.of(on.key(0), 1L));
        called();
    }

    @Jsr void aLoadedEntryIsntWritten(Subject on) {
        Cache<Long, Long> cache = on.cache(it -> it.setWriteThrough(true).setCacheWriterFactory(() -> writing).setReadThrough(true)
            .setCacheLoaderFactory(Loading::new));
        same(Loading.value(Loading.key(on, 1)), cache.get(Loading.key(on, 1)));
        called();
    }

    @Jsr void aWriterIsClosedWithItsCache(Subject on) {
        Cache<Long, Long> cache = cache(on);
        no(writing.isClosed);
        cache.close();
        yes(writing.isClosed);
    }
}
