package jentry.jcache.impl;

/** Closes objects that a program passed to a cache. */
final class Closing {
    private static final System.Logger LOG = System.getLogger("jentry.jcache");

    private Closing() { }

    /** Closes an object if it is closeable. An exception is only logged, because the cache is closed in any case. */
    static void close(Object it) {
        if (it instanceof AutoCloseable closeable) {
            try {
                closeable.close();
            } catch (Exception e) {
                LOG.log(System.Logger.Level.WARNING, it.getClass().getName() + " threw when it was closed", e);
            }
        }
    }
}
