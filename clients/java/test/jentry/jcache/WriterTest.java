package jentry.jcache;

import static org.junit.jupiter.api.Assertions.assertEquals;
import static org.junit.jupiter.api.Assertions.assertFalse;
import static org.junit.jupiter.api.Assertions.assertThrows;
import static org.junit.jupiter.api.Assertions.assertTrue;

import java.util.ArrayList;
import java.util.Arrays;
import java.util.Collection;
import java.util.List;
import java.util.Map;
import java.util.Set;
import java.util.concurrent.ConcurrentHashMap;
import javax.cache.Cache;
import javax.cache.integration.CacheWriter;
import javax.cache.integration.CacheWriterException;
import org.junit.jupiter.api.BeforeEach;
import org.junit.jupiter.api.Test;

/** Tests writers, which are called before a change and can prevent it. */
class WriterTest extends OnServer {
    private static final long FORBIDDEN = 13;
    private final Map<Long, Long> written = new ConcurrentHashMap<>();
    private final List<String> calls = new ArrayList<>();
    private Cache<Long, Long> through;

    private final class Writer implements CacheWriter<Long, Long> {
        @Override public void write(Cache.Entry<? extends Long, ? extends Long> entry) {
            calls.add("write " + (entry.getKey() - k) + " " + entry.getValue());
            if (entry.getValue() == FORBIDDEN) {
                throw new IllegalStateException("forbidden");
            }
            written.put(entry.getKey(), entry.getValue());
        }

        @Override public void writeAll(Collection<Cache.Entry<? extends Long, ? extends Long>> entries) {
            calls.add("writeAll " + entries.size());
            for (var it : List.copyOf(entries)) {
                if (it.getValue() != FORBIDDEN) {
                    written.put(it.getKey(), it.getValue());
                    entries.remove(it);
                }
            }
            if (!entries.isEmpty()) {
                throw new CacheWriterException("forbidden");
            }
        }

        @Override public void delete(Object key) {
            calls.add("delete " + ((Long) key - k));
            if (written.getOrDefault(key, 0L) == FORBIDDEN) {
                throw new IllegalStateException("forbidden");
            }
            written.remove(key);
        }

        @Override public void deleteAll(Collection<?> keys) {
            calls.add("deleteAll " + keys.size());
            for (Object it : List.copyOf(keys)) {
                if (written.getOrDefault(it, 0L) != FORBIDDEN) {
                    written.remove(it);
                    keys.remove(it);
                }
            }
            if (!keys.isEmpty()) {
                throw new CacheWriterException("forbidden");
            }
        }
    }

    private Cache<Long, Long> writing(String... properties) {
        return create(Server.types().setWriteThrough(true).setCacheWriterFactory(Writer::new), properties);
    }

    @BeforeEach void create() {
        through = writing();
    }

    private void called(String... wanted) {
        assertEquals(Arrays.asList(wanted), calls);
        calls.clear();
    }

    @Test void changesOfOneKey() {
        through.put(k, 1L);
        through.getAndPut(k, 2L);
        through.replace(k, 3L);
        through.getAndReplace(k, 4L);
        through.replace(k, 4L, 5L);
        called("write 0 1", "write 0 2", "write 0 3", "write 0 4", "write 0 5");
        through.remove(k, 5L);
        through.putIfAbsent(k, 6L);
        through.getAndRemove(k);
        through.remove(k);
        called("delete 0", "write 0 6", "delete 0", "delete 0");
        assertEquals(Map.of(), written);
    }

    @Test void whatChangesNothingWritesNothing() {
        through.put(k, 1L);
        calls.clear();
        through.putIfAbsent(k, 2L);
        through.replace(k + 1, 2L);
        through.getAndReplace(k + 1, 2L);
        through.replace(k, 7L, 8L);
        through.remove(k, 7L);
        through.get(k);
        through.containsKey(k);
        called();
    }

    @Test void aChangeThatTheWriterForbids() {
        through.put(k, 1L);
        assertEquals("forbidden", assertThrows(CacheWriterException.class, () -> through.put(k, FORBIDDEN)).getCause().getMessage());
        assertThrows(CacheWriterException.class, () -> through.replace(k, 1L, FORBIDDEN));
        assertThrows(CacheWriterException.class, () -> through.putIfAbsent(k + 1, FORBIDDEN));
        assertEquals(Map.of(k, 1L), through.getAll(Set.of(k, k + 1)));
        written.put(k, FORBIDDEN);
        assertThrows(CacheWriterException.class, () -> through.remove(k));
        assertTrue(through.containsKey(k));
    }

    @Test void putAllPutsWhatIsWritten() {
        through.putAll(Map.of(k, 1L, k + 1, 2L));
        called("writeAll 2");
        assertThrows(CacheWriterException.class, () -> through.putAll(Map.of(k, 5L, k + 1, FORBIDDEN, k + 2, 6L)));
        assertEquals(Map.of(k, 5L, k + 1, 2L, k + 2, 6L), through.getAll(Set.of(k, k + 1, k + 2)));
        assertEquals(Map.of(k, 5L, k + 1, 2L, k + 2, 6L), written);
    }

    @Test void removeAllRemovesWhatIsDeleted() {
        through.putAll(Map.of(k, 1L, k + 1, 2L, k + 2, 3L));
        written.put(k + 1, FORBIDDEN);
        calls.clear();
        assertThrows(CacheWriterException.class, () -> through.removeAll(Set.of(k, k + 1, k + 2)));
        called("deleteAll 3");
        assertEquals(Map.of(k + 1, 2L), through.getAll(Set.of(k, k + 1, k + 2)));
    }

    @Test void processorsThatTheServerAccepts() {
        assertEquals(1L, through.invoke(k, new Sample.Add(), 1L));
        assertEquals(6L, through.invoke(k, new Sample.Add(), 5L));
        assertEquals(6L, through.invoke(k, new Sample.Value()));
        called("write 0 1", "write 0 6");
        through.invoke(k, new Sample.Sets(), 6L);
        called("write 0 6");
        assertThrows(CacheWriterException.class, () -> through.invoke(k, new Sample.Add(), 7L));
        assertEquals(6L, through.get(k));
        through.invoke(k, new Sample.Removes());
        called("write 0 13", "delete 0");
        assertFalse(through.containsKey(k));
        assertEquals(Set.of(k, k + 1), through.invokeAll(Set.of(k, k + 1), new Sample.Add(), 2L).keySet());
        assertEquals(Map.of(k, 2L, k + 1, 2L), written);
    }

    @Test void processorsInThisJvm() {
        Cache<Long, Long> local = writing("jentry.local", "true");
        local.<Object>invoke(k, (entry, arguments) -> {
            entry.setValue(3L);
            return null;
        });
        local.<Object>invoke(k, (entry, arguments) -> {
            entry.remove();
            return null;
        });
        called("write 0 3", "delete 0");
        assertThrows(CacheWriterException.class, () -> local.<Object>invoke(k, (entry, arguments) -> {
            entry.setValue(FORBIDDEN);
            return null;
        }));
        assertFalse(local.containsKey(k));
    }

    /** As MutableEntry defines: remove is a removal that is written through, unless the same run has made the entry. */
    @Test void aProcessorThatRemovesNothing() {
        Cache<Long, Long> local = writing("jentry.local", "true");
        local.<Object>invoke(k, (entry, arguments) -> {
            entry.remove();
            return null;
        });
        called("delete 0");
        local.<Object>invoke(k, (entry, arguments) -> {
            entry.setValue(3L);
            entry.remove();
            return null;
        });
        called();
        local.<Object>invoke(k, (entry, arguments) -> {
            entry.setValue(3L);
            entry.remove();
            entry.remove();
            return null;
        });
        called("delete 0");
        assertFalse(local.containsKey(k));
        through.invoke(k, new Sample.Removes());
        called("delete 0");
        through.invoke(k, new Sample.SetsAndRemoves());
        through.invoke(k, new Sample.Value());
        through.invokeAll(Set.of(k), new Sample.SetsAndRemoves());
        called();
        through.invokeAll(Set.of(k), new Sample.Removes());
        called("delete 0");
    }

    @Test void manyThreadsWriteEachKeyInTheOrderOfTheCache() throws InterruptedException {
        Cache<Long, Long> plain = create(Server.types().setWriteThrough(true).setCacheWriterFactory(Sink::new));
        Team.of(8, t -> {
            for (long i = 0; i < 20; i++) {
                plain.put(k, t * 100 + i);
            }
        }).join();
        assertEquals(plain.get(k), Sink.LAST.get(k));
    }

    /** Records the last value of each key. */
    private static final class Sink implements CacheWriter<Long, Long> {
        static final Map<Long, Long> LAST = new ConcurrentHashMap<>();

        @Override public void write(Cache.Entry<? extends Long, ? extends Long> entry) {
            LAST.put(entry.getKey(), entry.getValue());
        }

        @Override public void writeAll(Collection<Cache.Entry<? extends Long, ? extends Long>> entries) {
            entries.forEach(this::write);
        }

        @Override public void delete(Object key) {
            LAST.remove(key);
        }

        @Override public void deleteAll(Collection<?> keys) {
            keys.forEach(this::delete);
        }
    }
}
