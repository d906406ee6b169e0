package jentry.jcache.impl;

/** Implements the {@code unwrap} methods of JCache. */
public final class Unwrap {
    private Unwrap() { }

    /**
     * Returns the object as another type.
     *
     * @param what the kind of object, for the message
     * @throws IllegalArgumentException if the object isn't of that type
     */
    public static <T> T as(Class<T> type, Object it, String what) {
        if (type.isInstance(it)) {
            return type.cast(it);
        }
        throw new IllegalArgumentException(what + " of jentry is no " + type.getName());
    }
}
