package jentry.jcache.store;

/**
 * The times to live that an expiry policy sets on creation, update and access. Each is in milliseconds, or one of the
 * constants.
 *
 * @param created for a new entry
 * @param updated for an entry that gets a new value
 * @param accessed for an entry that is read
 */
public record Durations(long created, long updated, long accessed) {
    /** The entry expires at once: it is deleted, or not created at all. */
    public static final long ZERO = 0;

    /** The entry keeps its current time to live. */
    public static final long LEAVE = -1;

    /** The entry never expires. */
    public static final long ETERNAL = -2;

    /** Entries never expire. */
    public static final Durations NONE = new Durations(ETERNAL, LEAVE, LEAVE);
}
