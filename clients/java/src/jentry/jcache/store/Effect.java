package jentry.jcache.store;

/** What a processor did to its entry. */
public enum Effect {
    /** It neither set nor removed the value. */
    KEEP,
    /** It set a value, which may equal the previous one. */
    PUT,
    /** It removed the entry. */
    DELETE
}
