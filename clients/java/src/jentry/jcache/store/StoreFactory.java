package jentry.jcache.store;

/** Opens the stores of a manager's caches. */
public interface StoreFactory {
    /**
     * Opens the store of the cache of that name.
     *
     * @throws javax.cache.CacheException if the server isn't available
     */
    Store open(String name);

    /** Closes the connections that the stores share. */
    void close();
}
