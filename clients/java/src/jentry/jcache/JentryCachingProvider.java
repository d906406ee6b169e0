package jentry.jcache;

import java.net.URI;
import java.util.ArrayList;
import java.util.HashMap;
import java.util.List;
import java.util.Map;
import java.util.Properties;
import java.util.function.Predicate;
import javax.cache.CacheManager;
import javax.cache.configuration.OptionalFeature;
import javax.cache.spi.CachingProvider;
import jentry.jcache.impl.PropertiesFile;

/**
 * The caching provider, which JCache finds by the service file of its jar. It has a manager for each URI and class
 * loader.
 */
public final class JentryCachingProvider implements CachingProvider {
    private final URI defaultUri = URI.create(System.getProperty("jentry.uri", PropertiesFile
        .of(Thread.currentThread().getContextClassLoader()).getProperty("jentry.uri", "jentry:default")));
    private final Map<List<Object>, JentryCacheManager> managers = new HashMap<>();

    /** Creates the provider. JCache calls this through the service loader. */
    public JentryCachingProvider() { }

    /**
     * Returns the manager of a URI and a class loader; null selects the default. Until the manager is closed, every
     * call returns the same one, with the properties of the first call.
     *
     * @throws javax.cache.CacheException if the URI or a property is invalid
     */
    @Override public synchronized CacheManager getCacheManager(URI uri, ClassLoader loader, Properties properties) {
        URI at = uri == null ? getDefaultURI() : uri;
        ClassLoader by = loader == null ? getDefaultClassLoader() : loader;
        Properties with = new Properties();
        if (properties != null) {
            properties.stringPropertyNames().forEach(name -> with.setProperty(name, properties.getProperty(name)));
        }
        return managers.computeIfAbsent(List.of(at, by), key -> new JentryCacheManager(this, at, by, with));
    }

    @Override public CacheManager getCacheManager(URI uri, ClassLoader loader) {
        return getCacheManager(uri, loader, null);
    }

    @Override public CacheManager getCacheManager() {
        return getCacheManager(null, null, null);
    }

    @Override public ClassLoader getDefaultClassLoader() {
        return getClass().getClassLoader();
    }

    /**
     * Returns the system property {@code jentry.uri}, or else that of the file {@code jentry.properties}, or else
     * {@code jentry:default}: a child process for each cache.
     */
    @Override public URI getDefaultURI() {
        return defaultUri;
    }

    @Override public Properties getDefaultProperties() {
        return new Properties();
    }

    synchronized void forget(JentryCacheManager manager) {
        managers.values().remove(manager);
    }

    @Override public void close() {
        closeAll(it -> true);
    }

    @Override public void close(ClassLoader loader) {
        ClassLoader by = loader == null ? getDefaultClassLoader() : loader;
        closeAll(it -> it.getClassLoader() == by);
    }

    @Override public void close(URI uri, ClassLoader loader) {
        URI at = uri == null ? getDefaultURI() : uri;
        ClassLoader by = loader == null ? getDefaultClassLoader() : loader;
        closeAll(it -> it.getClassLoader() == by && it.getURI().equals(at));
    }

    private void closeAll(Predicate<CacheManager> which) {
        List<JentryCacheManager> all;
        synchronized (this) {
            all = new ArrayList<>(managers.values());
        }
        all.stream().filter(which).forEach(CacheManager::close);
    }

    /** Returns false: the only optional feature, store by reference, isn't supported. */
    @Override public boolean isSupported(OptionalFeature feature) {
        return false;
    }
}
