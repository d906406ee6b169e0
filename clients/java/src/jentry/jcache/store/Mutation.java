package jentry.jcache.store;

/**
 * The outcome of a change of one entry.
 *
 * @param done whether the entry was changed
 * @param existed whether there was an entry before, or null if the store doesn't know
 * @param before the value before, or null; it is known only if the caller asked for it
 */
public record Mutation(boolean done, Boolean existed, Long before) { }
