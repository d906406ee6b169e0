package jentry.compiler;

import static org.junit.jupiter.api.Assertions.assertEquals;
import static org.junit.jupiter.api.Assertions.assertTrue;
import static org.junit.jupiter.api.Assumptions.assumeTrue;

import java.io.File;
import java.nio.file.Files;
import java.nio.file.Path;
import org.junit.jupiter.api.Test;
import org.junit.jupiter.api.io.TempDir;

/** Tests the goal of the plugin with a real Maven, without a network. */
class MavenTest {
    private static final Path UTILITIES = Path.of("/usr/share/java/plexus-utils.jar");
    private static final String PLUGIN = "jentry/jentry-maven-plugin/0.2.0/jentry-maven-plugin-0.2.0";

    @TempDir
    private Path folder;

    private static boolean isThere(String command) {
        return java.util.Arrays.stream(System.getenv("PATH").split(File.pathSeparator)).anyMatch(it -> Files.isExecutable(Path.of(it, command)));
    }

    private void store(String name, Path jar, String pom) throws Exception {
        Path target = folder.resolve("repository").resolve(name + ".jar");
        Files.createDirectories(target.getParent());
        Files.copy(jar, target);
        Files.writeString(folder.resolve("repository").resolve(name + ".pom"), pom);
    }

    private static String pom(String group, String artifact, String version) {
        return "<project><modelVersion>4.0.0</modelVersion><groupId>" + group + "</groupId><artifactId>" + artifact + "</artifactId><version>" + version
            + "</version></project>";
    }

    private String maven(int status) throws Exception {
        Process process = new ProcessBuilder("mvn", "-o", "-B", "-Dmaven.repo.local=" + folder.resolve("repository"),
            "jentry:jentry-maven-plugin:0.2.0:compile").directory(folder.resolve("project").toFile()).redirectErrorStream(true).start();
        String told = new String(process.getInputStream().readAllBytes());
        assertEquals(status, process.waitFor(), told);
        return told;
    }

    @Test
    void theGoalCompilesAndCompares() throws Exception {
        assumeTrue(isThere("mvn") && Files.exists(UTILITIES), "there is no mvn (apt-get install maven)");
        store(PLUGIN, Path.of(System.getProperty("jentry.jar")), Files.readString(Javac.HERE.resolve("maven/pom.xml")));
        // Maven adds these to each plugin; a remote repository would have them
        store("org/codehaus/plexus/plexus-utils/1.1/plexus-utils-1.1", UTILITIES, pom("org.codehaus.plexus", "plexus-utils", "1.1"));
        Path project = Files.createDirectories(folder.resolve("project/target/classes")).getParent().getParent();
        Files.writeString(project.resolve("pom.xml"), pom("g", "a", "1"));
        String loop = Javac.processor("Loop", "Long", "long s = 0; for (Object a : args) { s++; } return s;", "");
        Files.write(project.resolve("target/classes/Loop.class"), Javac.compile("Loop", loop, "--release", "17"));
        String told = maven(0);
        assertTrue(told.contains("10000 calls compared, none differs"), told);
        assertTrue(Files.exists(project.resolve("target/jentry-classes/Loop.class")), told);
        String bad = Javac.processor("Bad", "Object", "return \"\" + args.length;", "");
        Files.write(project.resolve("target/classes/Bad.class"), Javac.compile("Bad", bad, "--release", "17"));
        assertTrue(maven(1).contains("Bad.process, line 4: a text is joined"), "the refusal ends the build");
    }
}
