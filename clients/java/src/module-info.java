/**
 * A provider of JCache for caches of Long, whose entries are in {@code jentry serve} or in Redis.
 *
 * <p>The API's module is {@code cache.api}, the name that the jar {@code cache-api-1.1.1.jar} gives itself.
 */
@SuppressWarnings({"requires-automatic", "requires-transitive-automatic"})
module jentry.jcache {
    requires transitive cache.api;
    requires java.management;

    exports jentry.jcache;

    provides javax.cache.spi.CachingProvider with jentry.jcache.JentryCachingProvider;
}
