package jentry.jcache.impl;

import java.util.Set;
import java.util.function.Supplier;
import javax.cache.expiry.AccessedExpiryPolicy;
import javax.cache.expiry.CreatedExpiryPolicy;
import javax.cache.expiry.Duration;
import javax.cache.expiry.EternalExpiryPolicy;
import javax.cache.expiry.ExpiryPolicy;
import javax.cache.expiry.ModifiedExpiryPolicy;
import javax.cache.expiry.TouchedExpiryPolicy;
import jentry.jcache.store.Durations;

/**
 * The times to live from a cache's expiry policy. The five policies of JCache always give the same times, so those are
 * read once. Any other policy is asked on each call, by the one method that applies.
 */
final class ExpiryDurations {
    private static final System.Logger LOG = System.getLogger("jentry.jcache");
    private static final Set<Class<?>> CONSTANT = Set.of(EternalExpiryPolicy.class, CreatedExpiryPolicy.class,
        AccessedExpiryPolicy.class, ModifiedExpiryPolicy.class, TouchedExpiryPolicy.class);

    /** About 3,000 years: Redis refuses times that overflow its clock. */
    private static final long LONGEST_MILLIS = 100_000_000_000_000L;

    private final ExpiryPolicy policy;
    private final Durations constant;

    ExpiryDurations(ExpiryPolicy policy) {
        this.policy = policy;
        constant = CONSTANT.contains(policy.getClass()) ? new Durations(created(), updated(), accessed()) : null;
    }

    /** Returns whether the policy always gives the same times. */
    boolean isConstant() {
        return constant != null;
    }

    /** Returns the times of a policy that always gives the same ones, else null. */
    Durations constant() {
        return constant;
    }

    /** Returns whether it is certain that no entry ever expires. */
    boolean isEternal() {
        return Durations.NONE.equals(constant);
    }

    /** Returns the times for a new entry. */
    Durations forCreation() {
        return isConstant() ? constant : new Durations(created(), Durations.LEAVE, Durations.LEAVE);
    }

    /** Returns the times for an existing entry that gets a value. */
    Durations forUpdate() {
        return isConstant() ? constant : new Durations(Durations.ETERNAL, updated(), Durations.LEAVE);
    }

    /** Returns the time for an entry that is read. */
    long forAccess() {
        return isConstant() ? constant.accessed() : accessed();
    }

    private long created() {
        return millis(policy::getExpiryForCreation, Durations.ETERNAL);
    }

    private long updated() {
        return millis(policy::getExpiryForUpdate, Durations.LEAVE);
    }

    private long accessed() {
        return millis(policy::getExpiryForAccess, Durations.LEAVE);
    }

    private static long millis(Supplier<Duration> method, long otherwise) {
        Duration time;
        try {
            time = method.get();
        } catch (RuntimeException e) {
            LOG.log(System.Logger.Level.WARNING, "the expiry policy threw; the entry expires as if it gave no time", e);
            return otherwise;
        }
        if (time == null) {
            return otherwise;
        } else if (time.isEternal()) {
            return Durations.ETERNAL;
        }
        return Math.min(time.getTimeUnit().toMillis(time.getDurationAmount()), LONGEST_MILLIS);
    }

    ExpiryPolicy policy() {
        return policy;
    }
}
