package jentry.jcache;

import java.net.URL;
import java.net.URLClassLoader;
import java.nio.file.Files;
import java.nio.file.Path;
import java.util.List;
import javax.cache.processor.EntryProcessor;
import javax.tools.ToolProvider;

/** A different class of the name TopLevel, which returns 60. */
final class Renamed {
    private Renamed() { }

    static URLClassLoader loader() throws Exception {
        Path folder = Temporary.folder();
        Path source = Files.createDirectories(folder.resolve("src/jentry/jcache")).resolve("TopLevel.java");
        Path original = Path.of(System.getProperty("jentry.test8"), "jentry", "jcache", "TopLevel.java");
        Files.writeString(source, Files.readString(original).replace("return 6L", "return 60L"));
        String api = Path.of(EntryProcessor.class.getProtectionDomain().getCodeSource().getLocation().toURI()).toString();
        List<String> words = List.of("--release", "8", "-Xlint:-options", "-cp", api, "-d", folder.toString(), source.toString());
        if (ToolProvider.getSystemJavaCompiler().run(null, null, null, words.toArray(new String[0])) != 0) {
            throw new IllegalStateException("javac failed");
        }
        return new URLClassLoader(new URL[] {folder.toUri().toURL()}, EntryProcessor.class.getClassLoader()) {
            @Override protected Class<?> loadClass(String name, boolean resolve) throws ClassNotFoundException {
                Class<?> loaded = findLoadedClass(name);
                return !name.equals(TopLevel.class.getName()) ? super.loadClass(name, resolve) : loaded == null ? findClass(name) : loaded;
            }

            @Override public URL getResource(String name) {
                return findResource(name);
            }
        };
    }

    @SuppressWarnings("unchecked")
    static EntryProcessor<Long, Long, Object> processor(ClassLoader loader) throws ReflectiveOperationException {
        return (EntryProcessor<Long, Long, Object>) loader.loadClass(TopLevel.class.getName()).getDeclaredConstructor().newInstance();
    }
}
