package jentry.jcache.store;

/** Receives a store's events about entries, whichever client changed them. */
public interface Watcher {
    /** The kinds of changes. */
    enum Kind { CREATED, UPDATED, REMOVED, EXPIRED }

    /** Called after an entry changed. The call comes on a thread of the store and must not throw. */
    void changed(long key, Kind kind);
}
