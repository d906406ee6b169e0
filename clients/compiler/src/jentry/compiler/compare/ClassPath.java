package jentry.compiler.compare;

import java.io.File;
import java.io.IOException;
import java.io.InputStream;
import java.io.UncheckedIOException;
import java.net.MalformedURLException;
import java.net.URL;
import java.net.URLClassLoader;
import java.util.ArrayList;
import java.util.List;

/** The class path for running processors: the JCache API and the classes of the program. */
public final class ClassPath {
    private static final String STUBS = "/jentry/compiler/api/";

    private final ClassLoader common;

    /**
     * Creates a class path. If it lacks JCache, stubs of its interfaces that come with the compiler are used.
     *
     * @param places folders and jars, in the form of a class path
     */
    public ClassPath(String places) {
        List<URL> urls = new ArrayList<>();
        for (String place : places.split(File.pathSeparator)) {
            if (!place.isEmpty()) {
                try {
                    urls.add(new File(place).toURI().toURL());
                } catch (MalformedURLException e) {
                    throw new IllegalArgumentException(place, e);
                }
            }
        }
        common = new Stubs(urls.toArray(new URL[0]));
    }

    /** Returns the loader of the path's classes. */
    public ClassLoader loader() {
        return common;
    }

    Class<?> load(String name) throws ClassNotFoundException {
        return Class.forName(name, false, common);
    }

    /** Returns a loader that defines this class and the others of its package, and delegates to the path for the rest. */
    ClassLoader with(String name, byte[] classFile) {
        return new Own(common, name, classFile);
    }

    /** Loads classes from the path, and missing ones of JCache from the stubs. */
    private static final class Stubs extends URLClassLoader {
        Stubs(URL[] urls) {
            super(urls, ClassLoader.getPlatformClassLoader());
        }

        @Override
        protected Class<?> findClass(String name) throws ClassNotFoundException {
            try {
                return super.findClass(name);
            } catch (ClassNotFoundException e) {
                try (InputStream in = name.startsWith("javax.cache.") ? Stubs.class.getResourceAsStream(STUBS + name.replace('.', '/') + ".class") : null) {
                    if (in == null) {
                        throw e;
                    }
                    byte[] bytes = in.readAllBytes();
                    return defineClass(name, bytes, 0, bytes.length);
                } catch (IOException failed) {
                    throw new UncheckedIOException(failed);
                }
            }
        }
    }

    /** Defines a class of its own. It also defines the rest of the package, because package-private access fails between two loaders. */
    private static final class Own extends ClassLoader {
        private final String own;
        private final byte[] classFile;

        Own(ClassLoader parent, String own, byte[] classFile) {
            super(parent);
            this.own = own;
            this.classFile = classFile;
        }

        @Override
        protected Class<?> loadClass(String name, boolean resolve) throws ClassNotFoundException {
            synchronized (getClassLoadingLock(name)) {
                Class<?> loaded = findLoadedClass(name);
                byte[] bytes = loaded != null ? null : name.equals(own) ? classFile : ofPackage(name);
                return bytes != null ? defineClass(name, bytes, 0, bytes.length) : loaded != null ? loaded : super.loadClass(name, resolve);
            }
        }

        /** Returns the class file of another class of the package, or null. */
        private byte[] ofPackage(String name) {
            boolean isOfPackage = name.substring(0, name.lastIndexOf('.') + 1).equals(own.substring(0, own.lastIndexOf('.') + 1));
            try (InputStream in = isOfPackage ? getParent().getResourceAsStream(name.replace('.', '/') + ".class") : null) {
                return in == null ? null : in.readAllBytes();
            } catch (IOException e) {
                throw new UncheckedIOException(e);
            }
        }
    }
}
