package jentry.jcache.jsr107.reference;

import java.net.URI;
import java.util.ArrayList;
import java.util.LinkedHashMap;
import java.util.List;
import java.util.Map;
import java.util.Properties;
import javax.cache.CacheManager;
import javax.cache.configuration.OptionalFeature;
import javax.cache.spi.CachingProvider;

/** A caching provider whose caches are maps of this JVM, written from the text of JSR 107 to hold the suite to. Its values are immutable. */
public final class ReferenceProvider implements CachingProvider {
    private final Map<List<Object>, ReferenceManager> managers = new LinkedHashMap<>();

    @Override public synchronized CacheManager getCacheManager(URI uri, ClassLoader loader, Properties properties) {
        URI at = uri == null ? getDefaultURI() : uri;
        ClassLoader by = loader == null ? getDefaultClassLoader() : loader;
        return managers.computeIfAbsent(List.of(at, by), it -> new ReferenceManager(this, at, by, properties == null ? new Properties() : properties));
    }

    @Override public CacheManager getCacheManager(URI uri, ClassLoader loader) {
        return getCacheManager(uri, loader, null);
    }

    @Override public CacheManager getCacheManager() {
        return getCacheManager(null, null, null);
    }

    @Override public ClassLoader getDefaultClassLoader() {
        return getClass().getClassLoader();
    }

    @Override public URI getDefaultURI() {
        return URI.create("reference:default");
    }

    @Override public Properties getDefaultProperties() {
        return new Properties();
    }

    synchronized void forget(ReferenceManager manager) {
        managers.values().remove(manager);
    }

    private synchronized List<ReferenceManager> managers() {
        return new ArrayList<>(managers.values());
    }

    @Override public void close() {
        managers().forEach(CacheManager::close);
    }

    @Override public void close(ClassLoader loader) {
        managers().stream().filter(it -> it.getClassLoader() == loader).forEach(CacheManager::close);
    }

    @Override public void close(URI uri, ClassLoader loader) {
        managers().stream().filter(it -> it.getClassLoader() == loader && it.getURI().equals(uri)).forEach(CacheManager::close);
    }

    @Override public boolean isSupported(OptionalFeature feature) {
        return false;
    }
}
