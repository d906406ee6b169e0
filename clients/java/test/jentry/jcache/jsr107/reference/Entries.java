package jentry.jcache.jsr107.reference;

import java.util.ArrayList;
import java.util.HashMap;
import java.util.List;
import java.util.Map;
import java.util.function.Supplier;
import javax.cache.event.EventType;
import javax.cache.expiry.Duration;
import javax.cache.expiry.ExpiryPolicy;

/** Entries with deadlines. Each change fires its event. Whoever calls holds the lock of the cache. */
final class Entries<K, V> {
    private final Map<K, Held<V>> all = new HashMap<>();
    private final ExpiryPolicy policy;
    private final Events<K, V> events;

    /** A value and its deadline in milliseconds; a deadline that never comes is null. */
    private static final class Held<V> {
        V value;
        Long deadline;
    }

    Entries(ExpiryPolicy policy, Events<K, V> events) {
        this.policy = policy;
        this.events = events;
    }

    private static long now() {
        return System.nanoTime() / 1_000_000;
    }

    private Held<V> live(K key) {
        Held<V> held = all.get(key);
        if (held != null && held.deadline != null && held.deadline <= now()) {
            all.remove(key);
            events.fire(EventType.EXPIRED, key, held.value, held.value);
            return null;
        }
        return held;
    }

    /** Returns the value without an access. */
    V peek(K key) {
        Held<V> held = live(key);
        return held == null ? null : held.value;
    }

    /** Returns the value and gives it the time of an access. */
    V access(K key) {
        Held<V> held = live(key);
        if (held == null) {
            return null;
        }
        V value = held.value;
        renew(held, time(policy::getExpiryForAccess, null));
        live(key);
        return value;
    }

    private static Duration time(Supplier<Duration> of, Duration otherwise) {
        try {
            return of.get();
        } catch (RuntimeException e) {
            return otherwise;
        }
    }

    private void renew(Held<V> held, Duration time) {
        if (time != null) {
            held.deadline = time.isEternal() ? null : time.getAdjustedTime(now());
        }
    }

    /** Puts a value. Returns whether it is there afterwards: one that is created with a time of zero isn't. */
    boolean put(K key, V value) {
        Held<V> held = live(key);
        if (held != null) {
            V old = held.value;
            held.value = value;
            renew(held, time(policy::getExpiryForUpdate, null));
            events.fire(EventType.UPDATED, key, value, old);
            return true;
        }
        Duration time = time(policy::getExpiryForCreation, Duration.ETERNAL);
        if (time != null && time.isZero()) {
            return false;
        }
        Held<V> made = new Held<>();
        made.value = value;
        renew(made, time);
        all.put(key, made);
        events.fire(EventType.CREATED, key, value, null);
        return true;
    }

    /** Removes an entry. Returns whether there was one. */
    boolean remove(K key) {
        Held<V> held = live(key);
        if (held == null) {
            return false;
        }
        all.remove(key);
        events.fire(EventType.REMOVED, key, held.value, held.value);
        return true;
    }

    void clear() {
        all.clear();
    }

    List<K> keys() {
        List<K> keys = new ArrayList<>(all.keySet());
        keys.removeIf(it -> live(it) == null);
        return keys;
    }
}
