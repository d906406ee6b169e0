package jentry.jcache.redis;

import java.net.URI;
import javax.cache.CacheException;
import jentry.jcache.impl.Options;
import jentry.jcache.store.Store;
import jentry.jcache.store.StoreFactory;

/**
 * Stores in one Redis server or one Redis Cluster. They share a connection to each node, which the first store opens.
 */
public final class RedisStores implements StoreFactory {
    private final Options options;
    private RedisCluster cluster;

    /** Creates a factory for the nodes that the options name. */
    public RedisStores(Options options) {
        this.options = options;
    }

    @Override public synchronized Store open(String name) {
        if (cluster == null) {
            URI uri = options.uri();
            try {
                cluster = new RedisCluster(options);
            } catch (CacheException e) {
                throw new CacheException("there is no Redis at " + uri + ": " + e.getMessage(), e);
            }
        }
        return new NearStore(cluster, options.prefix(name), options.near());
    }

    @Override public synchronized void close() {
        if (cluster != null) {
            cluster.close();
            cluster = null;
        }
    }
}
