package javax.cache;

/** What the class file of an entry processor can name of the cache. */
public interface Cache<K, V> {
    interface Entry<K, V> {
        K getKey();

        V getValue();

        <T> T unwrap(Class<T> clazz);
    }
}
