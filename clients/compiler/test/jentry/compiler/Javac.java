package jentry.compiler;

import java.io.ByteArrayOutputStream;
import java.io.OutputStream;
import java.io.StringWriter;
import java.io.UncheckedIOException;
import java.io.IOException;
import java.net.URI;
import java.nio.file.Files;
import java.nio.file.Path;
import java.util.ArrayList;
import java.util.List;
import java.util.Map;
import java.util.TreeMap;
import java.util.stream.Stream;
import javax.tools.FileObject;
import javax.tools.ForwardingJavaFileManager;
import javax.tools.JavaCompiler;
import javax.tools.JavaFileManager;
import javax.tools.JavaFileObject;
import javax.tools.SimpleJavaFileObject;
import javax.tools.StandardJavaFileManager;
import javax.tools.ToolProvider;

/** Runs javac in this process, from sources to class files in memory. */
final class Javac {
    /** The folder of the compiler, clients/compiler. */
    static final Path HERE = Path.of(System.getProperty("jentry.compiler"));
    /** The jentry program, or null if there is none. */
    static final String PROGRAM = program();

    private Javac() { }

    private static String program() {
        String program = System.getProperty("jentry.program", "");
        return Files.isExecutable(Path.of(program)) ? program : null;
    }

    /** Compiles the stubs of JCache, and returns their folder. */
    static String api() {
        return System.getProperty("jentry.api");
    }

    /** Compiles sources by name, with `--release 8` or newer. Returns class files by class name. */
    static Map<String, byte[]> compile(Map<String, String> sources, String... options) {
        return compile(api(), sources, options);
    }

    static Map<String, byte[]> compile(String classPath, Map<String, String> sources, String... options) {
        JavaCompiler javac = ToolProvider.getSystemJavaCompiler();
        Map<String, byte[]> classes = new TreeMap<>();
        StringWriter told = new StringWriter();
        List<JavaFileObject> files = new ArrayList<>();
        sources.forEach((name, text) -> files.add(new Source(name, text)));
        List<String> words = new ArrayList<>(List.of("-proc:none", "-nowarn", "-Xlint:-options", "-cp", classPath));
        words.addAll(List.of(options));
        try (StandardJavaFileManager standard = javac.getStandardFileManager(null, null, null); JavaFileManager manager = new Memory(standard, classes)) {
            if (!javac.getTask(told, manager, null, words, null, files).call()) {
                throw new IllegalArgumentException(told.toString());
            }
        } catch (IOException e) {
            throw new UncheckedIOException(e);
        }
        return classes;
    }

    /** Compiles one source with a public class of this name. */
    static byte[] compile(String name, String text, String... options) {
        return compile(Map.of(name, text), options).get(name);
    }

    /** Returns the source of a processor with this body of process and these additional members. */
    static String processor(String name, String type, String body, String members) {
        return "import javax.cache.processor.*; import java.util.*;\npublic class " + name + " implements EntryProcessor<Long, Long, " + type + "> {\n"
            + "public " + type + " process(MutableEntry<Long, Long> entry, Object... args) {\n" + body + "\n}\n" + members + "\n}\n";
    }

    /** Returns the Java sources of a folder, by file name without the extension. */
    static Map<String, String> sources(Path folder) {
        Map<String, String> sources = new TreeMap<>();
        try (Stream<Path> files = Files.list(folder)) {
            for (Path file : files.filter(it -> it.toString().endsWith(".java")).toList()) {
                sources.put(file.getFileName().toString().replace(".java", ""), Files.readString(file));
            }
        } catch (IOException e) {
            throw new UncheckedIOException(e);
        }
        return sources;
    }

    private static final class Source extends SimpleJavaFileObject {
        private final String text;

        Source(String name, String text) {
            super(URI.create("string:///" + name.replace('.', '/') + ".java"), Kind.SOURCE);
            this.text = text;
        }

        @Override
        public CharSequence getCharContent(boolean ignores) {
            return text;
        }
    }

    private static final class Memory extends ForwardingJavaFileManager<StandardJavaFileManager> {
        private final Map<String, byte[]> classes;

        Memory(StandardJavaFileManager manager, Map<String, byte[]> classes) {
            super(manager);
            this.classes = classes;
        }

        @Override
        public JavaFileObject getJavaFileForOutput(Location location, String name, JavaFileObject.Kind kind, FileObject sibling) {
            return new SimpleJavaFileObject(URI.create("mem:///" + name.replace('.', '/') + ".class"), kind) {
                @Override
                public OutputStream openOutputStream() {
                    return new ByteArrayOutputStream() {
                        @Override
                        public void close() {
                            classes.put(name, toByteArray());
                        }
                    };
                }
            };
        }
    }
}
