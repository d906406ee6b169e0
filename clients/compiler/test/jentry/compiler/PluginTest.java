package jentry.compiler;

import static org.junit.jupiter.api.Assertions.assertEquals;
import static org.junit.jupiter.api.Assertions.assertTrue;

import java.nio.file.Files;
import java.nio.file.Path;
import java.util.List;
import org.junit.jupiter.api.BeforeEach;
import org.junit.jupiter.api.Test;
import org.junit.jupiter.api.io.TempDir;

/** Tests the plugin of javac with a javac of its own, as a build starts it. */
class PluginTest {
    private static final String GOOD = Javac.processor("Good", "Long", "long s = 0;\nfor (Object a : args) {\ns++;\n}\nreturn s;", "");
    private static final String BAD = Javac.processor("Bad", "Object", "long x = entry.getKey();\nwhile (x != 1) {\nx = x % 2 == 0 ? x / 2 : 3 * x + 1;\n}\n"
        + "System.out.println(\n  x);\nreturn x;", "static class Plain { }");

    @TempDir
    private Path folder;

    private String told;

    @BeforeEach
    void write() throws Exception {
        Files.writeString(folder.resolve("Good.java"), GOOD);
        Files.writeString(folder.resolve("Bad.java"), BAD);
        Files.createDirectories(folder.resolve("out"));
    }

    private int javac(String plugin, String... sources) throws Exception {
        return javacWith(Javac.api(), plugin, sources);
    }

    private int javacWith(String classPath, String plugin, String... sources) throws Exception {
        List<String> words = new java.util.ArrayList<>(List.of(Path.of(System.getProperty("java.home"), "bin/javac").toString(), "-Xplugin:" + plugin, "-processorpath",
            System.getProperty("jentry.jar"), "-cp", classPath, "-d", "out"));
        words.addAll(List.of(sources));
        Process process = new ProcessBuilder(words).directory(folder.toFile()).redirectErrorStream(true).start();
        told = new String(process.getInputStream().readAllBytes());
        return process.waitFor();
    }

    @Test
    void aRefusalIsAnErrorAtItsLine() throws Exception {
        assertEquals(1, javac("jentry out", "Good.java", "Bad.java"), told);
        assertTrue(told.contains("Bad.java:8: error: jentry: a call of java.io.PrintStream.println"), told);
        assertTrue(!told.contains("Good.java"), told);
        Files.writeString(folder.resolve("Bad.java"), BAD.replace("System.out.println(\n  x);\n", ""));
        assertEquals(1, javac("jentry out", "Bad.java"), told);
        assertTrue(told.contains("Bad.java:5: error: jentry: no counter ends this loop; count the passes"), told);
        assertTrue(told.contains("while (x != 1) {"), told);
    }

    @Test
    void orAWarning() throws Exception {
        assertEquals(0, javac("jentry out warn", "Good.java", "Bad.java"), told);
        assertTrue(told.contains("Bad.java:8: warning: jentry: a call of java.io.PrintStream.println"), told);
        assertTrue(Files.exists(folder.resolve("out/Bad.class")), told);
        assertEquals(0, javac("jentry out", "Good.java"), told);
        assertEquals("", told);
    }

    @Test
    void aBaseClassIsReadFromTheFolder() throws Exception {
        Files.writeString(folder.resolve("Base.java"), "abstract class Base { long twice(long x) { return 2 * x; } }");
        Files.writeString(folder.resolve("Good.java"), GOOD.replace("class Good ", "class Good extends Base ").replace("return s;", "return twice(s);"));
        assertEquals(0, javac("jentry out", "Base.java", "Good.java"), told);
        assertEquals("", told);
    }

    @Test
    void aBaseClassIsReadFromAJar() throws Exception {
        Files.writeString(folder.resolve("Base.java"), "public abstract class Base { protected long twice(long x) { return 2 * x; } }");
        Files.createDirectories(folder.resolve("lib"));
        run("javac", "-d", "lib", "Base.java");
        run("jar", "--create", "--file", "base.jar", "-C", "lib", "Base.class");
        Files.writeString(folder.resolve("Good.java"), GOOD.replace("class Good ", "class Good extends Base ").replace("return s;", "return twice(s);"));
        String path = Javac.api() + java.io.File.pathSeparator + "base.jar";
        assertEquals(1, javacWith(path, "jentry out", "Good.java"), told);
        assertEquals(0, javacWith(path, "jentry out --classpath base.jar", "Good.java"), told);
        assertEquals("", told);
        assertEquals(0, javacWith(path, "jentry out warn --classpath base.jar", "Good.java"), told);
        assertTrue(javacWith(path, "jentry out --classpath", "Good.java") != 0, told);
    }

    private void run(String tool, String... words) throws Exception {
        List<String> all = new java.util.ArrayList<>(List.of(Path.of(System.getProperty("java.home"), "bin", tool).toString()));
        all.addAll(List.of(words));
        assertEquals(0, new ProcessBuilder(all).directory(folder.toFile()).inheritIO().start().waitFor());
    }

    @Test
    void theFolderIsNeeded() throws Exception {
        assertTrue(javac("jentry", "Good.java") != 0, told);
        assertTrue(told.contains("jentry OUT [warn] [--classpath PATH]"), told);
        assertEquals(0, javac("jentry elsewhere", "Good.java"), told);
        assertTrue(told.contains("the class file of Good isn't in elsewhere: name the folder of -d"), told);
    }
}
