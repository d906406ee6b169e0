package jentry.jcache.redis;

import java.util.List;
import java.util.Map;
import java.util.concurrent.CompletableFuture;
import java.util.concurrent.ConcurrentHashMap;
import java.util.concurrent.CopyOnWriteArrayList;
import java.util.function.Supplier;

/**
 * The near caches in this JVM of all caches whose entries have one prefix, whichever managers they belong to. Each hears
 * of the writes that this JVM makes before they are sent and after they have ended, so that it returns no value from
 * before a write of this JVM. Caches of one prefix on different servers drop more values than they have to.
 */
final class OwnWrites {
    private static final Map<String, OwnWrites> ALL = new ConcurrentHashMap<>();

    private final String prefix;
    private final List<NearValues> near = new CopyOnWriteArrayList<>();
    private int stores;

    private OwnWrites(String prefix) {
        this.prefix = prefix;
    }

    /** Returns those of a prefix, for a store that calls {@link #leave} in the end. */
    static OwnWrites join(String prefix) {
        return ALL.compute(prefix, (it, known) -> {
            OwnWrites own = known == null ? new OwnWrites(prefix) : known;
            own.stores++;
            return own;
        });
    }

    /** Called by a store that is closed. */
    void leave(NearValues values) {
        near.remove(values);
        ALL.computeIfPresent(prefix, (it, known) -> --known.stores == 0 ? null : known);
    }

    /** Adds a near cache. */
    void add(NearValues values) {
        near.add(values);
    }

    /** Makes a write of keys. */
    <T> T make(Supplier<T> write, long... keys) {
        List<NearValues> begun = begin(keys);
        try {
            return write.get();
        } finally {
            end(begun, keys);
        }
    }

    /** Starts a write of a key. The future that is returned ends after the near caches have heard of its end. */
    <T> CompletableFuture<T> start(Supplier<CompletableFuture<T>> write, long key) {
        List<NearValues> begun = begin(key);
        try {
            return write.get().whenComplete((done, e) -> end(begun, key));
        } catch (RuntimeException e) {
            end(begun, key);
            throw e;
        }
    }

    /** Drops all values, after a write of all keys. */
    void madeOfAll() {
        near.forEach(NearValues::clear);
    }

    private List<NearValues> begin(long... keys) {
        List<NearValues> all = near.isEmpty() ? List.of() : List.copyOf(near);
        for (NearValues it : all) {
            for (long key : keys) {
                it.beginWrite(key);
            }
        }
        return all;
    }

    /** Ends a write. A near cache that was made while the write was out didn't hear of its begin. */
    private void end(List<NearValues> begun, long... keys) {
        for (NearValues it : begun) {
            for (long key : keys) {
                it.endWrite(key);
            }
        }
        for (NearValues it : near) {
            if (!begun.contains(it)) {
                for (long key : keys) {
                    it.changed(key);
                }
            }
        }
    }
}
