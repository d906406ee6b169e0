package jentry.jcache;

import static org.junit.jupiter.api.Assertions.assertEquals;
import static org.junit.jupiter.api.Assertions.assertThrows;
import static org.junit.jupiter.api.Assertions.assertTrue;

import java.net.URI;
import java.net.URL;
import java.net.URLClassLoader;
import java.nio.file.Files;
import java.nio.file.Path;
import java.util.Properties;
import javax.cache.CacheException;
import javax.cache.CacheManager;
import javax.cache.Caching;
import org.junit.jupiter.api.Test;

/** Tests the file jentry.properties of a class path. */
class PropertiesFileTest {
    private static final URI CHILD = URI.create("jentry:default");

    private interface With {
        void use(ClassLoader loader) throws Exception;
    }

    private static void file(String text, With with) throws Exception {
        Path folder = Temporary.folder();
        Files.writeString(folder.resolve("jentry.properties"), text);
        try (URLClassLoader loader = new URLClassLoader(new URL[] {folder.toUri().toURL()}, PropertiesFileTest.class.getClassLoader())) {
            with.use(loader);
        }
    }

    private static String cannot(URI uri, ClassLoader loader) {
        return assertThrows(CacheException.class, () -> Caching.getCachingProvider().getCacheManager(uri, loader)).getMessage();
    }

    @Test void itsPropertiesAreThoseOfTheManagersOfItsLoader() throws Exception {
        file("jentry.stripes=65\nother=1\n", loader -> {
            assertTrue(cannot(CHILD, loader).contains("jentry.stripes is a number from 1 to 64, not 65"));
            Properties own = new Properties();
            own.setProperty("jentry.stripes", "4");
            try (CacheManager manager = Caching.getCachingProvider().getCacheManager(CHILD, loader, own)) {
                assertEquals(own, manager.getProperties(), "the manager's own properties come first");
            }
        });
    }

    @Test void oneFileServesManagersOfEachKindOfServer() throws Exception {
        file("jentry.program=/a\njentry.events=local\njentry.queue=5\n", loader -> {
            Caching.getCachingProvider().getCacheManager(CHILD, loader).close();
            Caching.getCachingProvider().getCacheManager(URI.create("jentry+unix:/a"), loader).close();
        });
    }

    @Test void whatItCantSay() throws Exception {
        file("jentry.tiemout=1\n", loader -> {
            String message = cannot(CHILD, loader);
            assertTrue(message.contains("jentry.tiemout") && message.contains("jentry.properties"), message);
        });
        file("jentry.timeout=-1\n", loader -> assertTrue(cannot(CHILD, loader).contains("jentry.timeout is a number from 0")));
        file("jentry.timeout=\\u12\n", loader -> assertTrue(cannot(CHILD, loader).contains("jentry.properties of the class path can't be read")));
    }

    @Test void theDefaultUri() throws Exception {
        Thread thread = Thread.currentThread();
        ClassLoader before = thread.getContextClassLoader();
        file("jentry.uri=jentry+unix:/from/the/file\n", loader -> {
            try {
                thread.setContextClassLoader(loader);
                assertEquals(URI.create("jentry+unix:/from/the/file"), new JentryCachingProvider().getDefaultURI());
                System.setProperty("jentry.uri", "jentry+unix:/from/the/system");
                assertEquals(URI.create("jentry+unix:/from/the/system"), new JentryCachingProvider().getDefaultURI());
            } finally {
                System.clearProperty("jentry.uri");
                thread.setContextClassLoader(before);
            }
        });
        assertEquals(CHILD, new JentryCachingProvider().getDefaultURI());
    }
}
