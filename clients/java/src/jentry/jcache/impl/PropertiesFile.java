package jentry.jcache.impl;

import java.io.IOException;
import java.io.InputStream;
import java.util.Properties;
import javax.cache.CacheException;

/** The file {@code jentry.properties} at the root of a class path, if there is one. */
public final class PropertiesFile {
    /** The name of the file. */
    public static final String NAME = "jentry.properties";

    private PropertiesFile() { }

    /**
     * Returns the properties of the file that a class loader finds, or none.
     *
     * @throws CacheException if the file can't be read
     */
    public static Properties of(ClassLoader loader) {
        Properties all = new Properties();
        try (InputStream in = loader == null ? null : loader.getResourceAsStream(NAME)) {
            if (in != null) {
                all.load(in);
            }
        } catch (IOException | IllegalArgumentException e) {
            throw new CacheException("the file " + NAME + " of the class path can't be read: " + e.getMessage(), e);
        }
        return all;
    }
}
