package jentry.jcache.jsr107;

import static jentry.jcache.jsr107.Expect.eachThrows;
import static jentry.jcache.jsr107.Expect.no;
import static jentry.jcache.jsr107.Expect.none;
import static jentry.jcache.jsr107.Expect.pause;
import static jentry.jcache.jsr107.Expect.same;
import static jentry.jcache.jsr107.Expect.soon;
import static jentry.jcache.jsr107.Expect.thrown;
import static jentry.jcache.jsr107.Expect.yes;

import java.util.List;
import java.util.Map;
import java.util.Set;
import java.util.concurrent.TimeUnit;
import javax.cache.Cache;
import javax.cache.configuration.MutableCacheEntryListenerConfiguration;
import javax.cache.event.CacheEntryCreatedListener;
import javax.cache.event.CacheEntryEvent;
import javax.cache.event.CacheEntryListenerException;
import javax.cache.event.EventType;
import javax.cache.expiry.CreatedExpiryPolicy;
import javax.cache.expiry.Duration;
import org.junit.jupiter.api.Tag;

/** Listeners: which methods fire which events, with which values. */
@Tag("server")
class EventsTest {
    private static Hearing listen(Cache<Long, Long> cache) {
        Hearing heard = new Hearing();
        cache.registerCacheEntryListener(heard.by(true, true));
        return heard;
    }

    @Jsr void changesOfOneKey(Subject on) {
        Cache<Long, Long> cache = on.cache();
        Hearing heard = listen(cache);
        long k = on.key(0);
        cache.put(k, 1L);
        same(List.of("created 1 null"), heard.heard());
        cache.put(k, 2L);
        same(List.of("updated 2 1"), heard.heard());
        cache.put(k, 2L);
        same(List.of("updated 2 2"), heard.heard());
        cache.getAndPut(k, 3L);
        same(List.of("updated 3 2"), heard.heard());
        cache.replace(k, 4L);
        same(List.of("updated 4 3"), heard.heard());
        cache.getAndReplace(k, 5L);
        same(List.of("updated 5 4"), heard.heard());
        cache.replace(k, 5L, 6L);
        same(List.of("updated 6 5"), heard.heard());
        cache.remove(k);
        same(List.of("removed 6 6"), heard.heard());
        cache.putIfAbsent(k, 7L);
        same(List.of("created 7 null"), heard.heard());
        cache.remove(k, 7L);
        same(List.of("removed 7 7"), heard.heard());
        cache.getAndPut(k, 8L);
        same(List.of("created 8 null"), heard.heard());
        cache.getAndRemove(k);
        same(List.of("removed 8 8"), heard.heard());
    }

    @Jsr void whatChangesNothingFiresNothing(Subject on) {
        Cache<Long, Long> cache = on.cache();
        long k = on.key(0);
        cache.put(k, 1L);
        Hearing heard = listen(cache);
        cache.get(k);
        cache.containsKey(k);
        cache.getAll(on.keys(2));
        cache.putIfAbsent(k, 2L);
        cache.replace(k, 9L, 2L);
        cache.remove(k, 9L);
        cache.remove(on.key(1));
        cache.getAndRemove(on.key(1));
        cache.replace(on.key(1), 1L);
        cache.getAndReplace(on.key(1), 1L);
        cache.removeAll(Set.of(on.key(1)));
        same(List.of(), heard.heard());
    }

    @Jsr void changesOfSeveralKeys(Subject on) {
        Cache<Long, Long> cache = on.cache();
        cache.put(on.key(0), 1L);
        Hearing heard = listen(cache);
        cache.putAll(Map.of(on.key(0), 2L, on.key(1), 3L));
        same(Set.of("updated 2 1", "created 3 null"), Set.copyOf(heard.heard()));
        cache.removeAll(on.keys(3));
        same(Set.of("removed 2 2", "removed 3 3"), Set.copyOf(heard.heard()));
    }

    @Deviates("Keys")
    @Jsr void removeAllClearAndTheIterator(Subject on) {
        Cache<Long, Long> cache = on.cache();
        Hearing heard = listen(cache);
        cache.putAll(Map.of(on.key(0), 2L, on.key(1), 3L));
        heard.heard();
        cache.removeAll();
        same(Set.of("removed 2 2", "removed 3 3"), Set.copyOf(heard.heard()));
        cache.put(on.key(0), 4L);
        heard.heard();
        cache.clear();
        same(List.of(), heard.heard());
        cache.put(on.key(0), 5L);
        heard.heard();
        var entries = cache.iterator();
        entries.next();
        same(List.of(), heard.heard());
        entries.remove();
        same(List.of("removed 5 5"), heard.heard());
    }

    @Jsr void processors(Subject on) {
        Cache<Long, Long> cache = on.cache();
        Hearing heard = listen(cache);
        long k = on.key(0);
        cache.invoke(k, new Processors.Sets(), 1L);
        same(List.of("created 1 null"), heard.heard());
        cache.invoke(k, new Processors.Adds(), 2L);
        same(List.of("updated 3 1"), heard.heard());
        cache.invoke(k, new Processors.Sets(), 3L);
        same(List.of("updated 3 3"), heard.heard());
        cache.invoke(k, new Processors.SetsTwice(), 4L, 5L);
        same(List.of("updated 5 3"), heard.heard());
        cache.invoke(k, new Processors.Value());
        cache.invoke(k, new Processors.Exists());
        same(List.of(), heard.heard());
        cache.invoke(k, new Processors.Removes());
        same(List.of("removed 5 5"), heard.heard());
        cache.invoke(k, new Processors.Removes());
        cache.invoke(k, new Processors.SetsAndRemoves(), 5L);
        same(List.of(), heard.heard());
        cache.invokeAll(on.keys(2), new Processors.Adds(), 1L);
        same(List.of("created 1 null", "created 1 null"), heard.heard());
        cache.invoke(k, new Processors.RemovesAndSets(), 6L);
        same(List.of("updated 6 1"), heard.heard());
    }

    @Jsr void whatAnEventSays(Subject on) {
        Cache<Long, Long> cache = on.cache();
        Hearing heard = listen(cache);
        cache.put(on.key(0), 1L);
        cache.put(on.key(0), 2L);
        cache.remove(on.key(0));
        List<EventType> types = heard.events.stream().map(CacheEntryEvent::getEventType).toList();
        same(List.of(EventType.CREATED, EventType.UPDATED, EventType.REMOVED), types);
        for (CacheEntryEvent<? extends Long, ? extends Long> it : heard.events) {
            same(on.key(0), it.getKey());
            same(cache, it.getSource());
            same(it.getEventType() != EventType.CREATED, it.isOldValueAvailable());
            yes(it.unwrap(CacheEntryEvent.class) == it);
            thrown(IllegalArgumentException.class, () -> it.unwrap(String.class));
        }
        none(heard.events.get(0).getOldValue());
        same(1L, heard.events.get(1).getOldValue());
        same(2L, heard.events.get(2).getOldValue());
    }

    @Jsr void oldValuesAreThereForThoseWhoRequireThem(Subject on) {
        Cache<Long, Long> cache = on.cache();
        Hearing with = new Hearing(), without = new Hearing();
        cache.registerCacheEntryListener(with.by(true, true));
        cache.registerCacheEntryListener(without.by(false, true));
        cache.put(on.key(0), 1L);
        cache.put(on.key(0), 2L);
        same(List.of("created 1 null", "updated 2 1"), with.heard());
        same("created 1 null", without.words.get(0));
        yes(without.words.get(1).startsWith("updated 2 "));
        same(2, without.words.size());
    }

    @Jsr void aSynchronousListenerHearsBeforeTheCallReturns(Subject on) {
        Cache<Long, Long> cache = on.cache();
        Hearing heard = new Hearing();
        cache.registerCacheEntryListener(heard.by(false, true));
        for (long i = 0; i < 5; i++) {
            cache.put(on.key(i), i);
            same(1 + (int) i, heard.words.size());
        }
    }

    @Jsr void anAsynchronousListenerHearsInTheOrderOfTheChanges(Subject on) {
        Cache<Long, Long> cache = on.cache();
        Hearing heard = new Hearing();
        cache.registerCacheEntryListener(heard.by(true, false));
        for (long i = 0; i < 20; i++) {
            cache.put(on.key(0), i);
        }
        soon(() -> heard.words.size() == 20);
        for (int i = 1; i < 20; i++) {
            same("updated " + i + " " + (i - 1), heard.words.get(i));
        }
    }

    @Jsr void filters(Subject on) {
        Cache<Long, Long> cache = on.cache();
        Hearing heard = new Hearing();
        cache.registerCacheEntryListener(new MutableCacheEntryListenerConfiguration<>(() -> heard, () -> it -> it.getValue() > 1, true, true));
        cache.put(on.key(0), 1L);
        same(List.of(), heard.heard());
        cache.put(on.key(0), 2L);
        same(List.of("updated 2 1"), heard.heard());
        cache.put(on.key(1), 5L);
        same(List.of("created 5 null"), heard.heard());
        cache.remove(on.key(1));
        same(List.of("removed 5 5"), heard.heard());
    }

    @Jsr void aListenerOfOneKindHearsThatKind(Subject on) {
        Cache<Long, Long> cache = on.cache();
        List<Long> created = new java.util.concurrent.CopyOnWriteArrayList<>();
        CacheEntryCreatedListener<Long, Long> listener = events -> events.forEach(it -> created.add(it.getValue()));
        cache.registerCacheEntryListener(new MutableCacheEntryListenerConfiguration<>(() -> listener, null, true, true));
        cache.put(on.key(0), 1L);
        cache.put(on.key(0), 2L);
        cache.remove(on.key(0));
        cache.put(on.key(0), 3L);
        same(List.of(1L, 3L), created);
    }

    @Jsr void aListenerThatThrows(Subject on) {
        Cache<Long, Long> cache = on.cache();
        CacheEntryCreatedListener<Long, Long> unwilling = events -> {
            throw new IllegalStateException("unwilling");
        };
        CacheEntryCreatedListener<Long, Long> own = events -> {
            throw new CacheEntryListenerException("own");
        };
        var first = new MutableCacheEntryListenerConfiguration<Long, Long>(() -> unwilling, null, false, true);
        cache.registerCacheEntryListener(first);
        Throwable thrown = thrown(CacheEntryListenerException.class, () -> cache.put(on.key(0), 1L));
        same("unwilling", thrown.getCause().getMessage());
        same(1L, cache.get(on.key(0)));
        cache.deregisterCacheEntryListener(first);
        cache.registerCacheEntryListener(new MutableCacheEntryListenerConfiguration<>(() -> own, null, false, true));
        same("own", thrown(CacheEntryListenerException.class, () -> cache.put(on.key(1), 1L)).getMessage());
        yes(cache.containsKey(on.key(1)));
    }

    @Jsr void registering(Subject on) {
        Cache<Long, Long> cache = on.cache();
        Hearing heard = new Hearing();
        var by = heard.by(true, true);
        cache.registerCacheEntryListener(by);
        thrown(IllegalArgumentException.class, () -> cache.registerCacheEntryListener(by));
        cache.put(on.key(0), 1L);
        same(1, heard.heard().size());
        cache.deregisterCacheEntryListener(by);
        cache.put(on.key(0), 2L);
        same(List.of(), heard.heard());
        cache.deregisterCacheEntryListener(by);
        cache.registerCacheEntryListener(by);
        cache.put(on.key(0), 3L);
        same(List.of("updated 3 2"), heard.heard());
        eachThrows(NullPointerException.class, () -> cache.registerCacheEntryListener(null), () -> cache.deregisterCacheEntryListener(null));
    }

    @Jsr void listenersOfTheConfiguration(Subject on) {
        Hearing heard = new Hearing();
        var by = heard.by(true, true);
        Cache<Long, Long> cache = on.cache(it -> it.addCacheEntryListenerConfiguration(by));
        cache.put(on.key(0), 1L);
        same(List.of("created 1 null"), heard.heard());
        thrown(IllegalArgumentException.class, () -> cache.registerCacheEntryListener(by));
        cache.deregisterCacheEntryListener(by);
        cache.put(on.key(0), 2L);
        same(List.of(), heard.heard());
    }

    @Jsr void loadedEntries(Subject on) {
        Hearing heard = new Hearing();
        Loading loading = new Loading();
        Cache<Long, Long> cache = on.cache(it -> it.setReadThrough(true).setCacheLoaderFactory(() -> loading)
            .addCacheEntryListenerConfiguration(heard.by(true, true)));
        long k = Loading.key(on, 1);
        cache.get(k);
        same(List.of("created " + Loading.value(k) + " null"), heard.heard());
        cache.get(k);
        same(List.of(), heard.heard());
        same(1, loading.count());
    }

    @Deviates({"Expiry", "Expired"})
    @Jsr void expiredEntries(Subject on) {
        Hearing heard = new Hearing();
        Cache<Long, Long> cache = on.cache(it -> it.setExpiryPolicyFactory(CreatedExpiryPolicy.factoryOf(new Duration(TimeUnit.MILLISECONDS, 50)))
            .addCacheEntryListenerConfiguration(heard.by(true, true)));
        cache.put(on.key(0), 1L);
        pause(400);
        none(cache.get(on.key(0)));
        pause(400);
        same(List.of("created 1 null", "expired 1 1"), heard.heard());
    }

    @Deviates("Expiry")
    @Jsr void anEntryThatIsNeverThereFiresNothing(Subject on) {
        Hearing heard = new Hearing();
        Cache<Long, Long> cache = on.cache(it -> it.setExpiryPolicyFactory(CreatedExpiryPolicy.factoryOf(Duration.ZERO))
            .addCacheEntryListenerConfiguration(heard.by(true, true)));
        cache.put(on.key(0), 1L);
        cache.getAndPut(on.key(0), 1L);
        cache.putIfAbsent(on.key(0), 1L);
        cache.putAll(Map.of(on.key(0), 1L));
        no(cache.containsKey(on.key(0)));
        same(List.of(), heard.heard().stream().filter(it -> it.startsWith("created") || it.startsWith("updated")).toList());
    }
}
