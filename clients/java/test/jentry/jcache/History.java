package jentry.jcache;

import java.util.ArrayList;
import java.util.Collections;
import java.util.HashSet;
import java.util.List;
import java.util.Objects;
import java.util.Set;
import java.util.concurrent.ConcurrentHashMap;
import java.util.concurrent.ConcurrentMap;
import java.util.concurrent.atomic.AtomicLong;
import java.util.function.Supplier;
import javax.cache.Cache;

/** The calls of several threads on one key that had no entry, with the time and result of each, and a check that a ConcurrentHashMap allows them. */
final class History {
    private static final AtomicLong CLOCK = new AtomicLong();
    private static final Long KEY = 0L;

    private final List<Call> calls = Collections.synchronizedList(new ArrayList<>());

    /** A method of a cache. It uses those of the arguments that it needs. */
    interface OnCache {
        Object call(Cache<Long, Long> it, long key, long old, long value);
    }

    /** The same method on a map. */
    interface OnMap {
        Object call(ConcurrentMap<Long, Long> it, long old, long value);
    }

    /** The methods on one key, each with its equivalent on a map. */
    enum Method {
        GET((it, key, old, value) -> it.get(key), (it, old, value) -> it.get(KEY)),
        CONTAINS_KEY((it, key, old, value) -> it.containsKey(key), (it, old, value) -> it.containsKey(KEY)),
        PUT((it, key, old, value) -> nothing(() -> it.put(key, value)), (it, old, value) -> nothing(() -> it.put(KEY, value))),
        REMOVE((it, key, old, value) -> it.remove(key), (it, old, value) -> it.remove(KEY) != null),
        GET_AND_PUT((it, key, old, value) -> it.getAndPut(key, value), (it, old, value) -> it.put(KEY, value)),
        PUT_IF_ABSENT((it, key, old, value) -> it.putIfAbsent(key, value), (it, old, value) -> it.putIfAbsent(KEY, value) == null),
        REMOVE_IF((it, key, old, value) -> it.remove(key, old), (it, old, value) -> it.remove(KEY, old)),
        GET_AND_REMOVE((it, key, old, value) -> it.getAndRemove(key), (it, old, value) -> it.remove(KEY)),
        REPLACE_IF((it, key, old, value) -> it.replace(key, old, value), (it, old, value) -> it.replace(KEY, old, value)),
        REPLACE((it, key, old, value) -> it.replace(key, value), (it, old, value) -> it.replace(KEY, value) != null),
        GET_AND_REPLACE((it, key, old, value) -> it.getAndReplace(key, value), (it, old, value) -> it.replace(KEY, value));

        final OnCache onCache;
        final OnMap onMap;

        Method(OnCache onCache, OnMap onMap) {
            this.onCache = onCache;
            this.onMap = onMap;
        }

        private static Object nothing(Runnable does) {
            does.run();
            return null;
        }
    }

    private record Call(Method method, long old, long value, Object told, long begin, long end) { }

    /** The calls that were applied, one bit each, and the entry after them. */
    private record Place(long taken, Long entry) { }

    /** Makes a call and records its result. */
    void call(Method method, long old, long value, Supplier<Object> call) {
        long begin = CLOCK.incrementAndGet();
        Object told = call.get();
        calls.add(new Call(method, old, value, told, begin, CLOCK.incrementAndGet()));
    }

    /** Adds a call with this result and these start and end times, for made-up histories. */
    void told(Method method, long old, long value, Object told, long begin, long end) {
        calls.add(new Call(method, old, value, told, begin, end));
    }

    int size() {
        return calls.size();
    }

    /**
     * Returns whether the calls are linearizable: whether they have an order in which each call that ended before another began comes before it, and in which a
     * ConcurrentHashMap returns the same results. There may be at most 64 calls.
     */
    boolean isAllowed() {
        if (size() > Long.SIZE) {
            throw new IllegalStateException(size() + " calls are too many");
        }
        return isAllowedFrom(new Place(0, null), new HashSet<>());
    }

    private boolean isAllowedFrom(Place place, Set<Place> seen) {
        long earliestEnd = Long.MAX_VALUE;
        for (int i = 0; i < size(); i++) {
            if ((place.taken >> i & 1) == 0) {
                earliestEnd = Math.min(earliestEnd, calls.get(i).end);
            }
        }
        if (earliestEnd == Long.MAX_VALUE) {
            return true;
        }
        for (int i = 0; i < size(); i++) {
            Call next = calls.get(i);
            if ((place.taken >> i & 1) == 0 && next.begin < earliestEnd) {
                Place after = after(place, i, next);
                if (after != null && seen.add(after) && isAllowedFrom(after, seen)) {
                    return true;
                }
            }
        }
        return false;
    }

    /** Returns the state after the call, or null if a map returns a different result. */
    private static Place after(Place place, int at, Call call) {
        ConcurrentMap<Long, Long> map = new ConcurrentHashMap<>();
        if (place.entry != null) {
            map.put(KEY, place.entry);
        }
        Object told = call.method.onMap.call(map, call.old, call.value);
        return Objects.equals(told, call.told) ? new Place(place.taken | 1L << at, map.get(KEY)) : null;
    }

    @Override public String toString() {
        return calls.toString();
    }
}
