package jentry.jcache;

import static org.junit.jupiter.api.Assertions.assertEquals;

import java.io.IOException;
import java.nio.file.Files;
import java.nio.file.Path;
import java.util.ArrayList;
import java.util.List;
import org.junit.jupiter.api.Tag;
import org.junit.jupiter.api.Test;

/** Compiles the examples against the JCache API alone, and runs each in its own JVM with the provider's jar on the class path. */
@Tag("server")
class ExampleTest {
    private static final String JARS = System.getProperty("jentry.jars");
    private static final String PROGRAM = System.getProperty("jentry.program");

    private static List<String> lines(ProcessBuilder command) throws IOException, InterruptedException {
        Process process = command.redirectErrorStream(true).start();
        process.getOutputStream().close();
        List<String> told = new ArrayList<>(process.inputReader().lines().toList());
        told.add("status " + process.waitFor());
        return told;
    }

    /** Compiles an example and returns the folder of its class files. */
    private static Path compiled(String example) throws IOException, InterruptedException {
        Path folder = Temporary.folder();
        String source = Path.of(System.getProperty("jentry.examples"), example + ".java").toString();
        String api = JARS.split(":")[0];
        List<String> told = lines(new ProcessBuilder("javac", "--release", "8", "-Xlint:-options", "-cp", api, "-d", folder.toString(), source));
        assertEquals(List.of("status 0"), told);
        return folder;
    }

    private static ProcessBuilder java(Path folder, String... words) {
        List<String> command = new ArrayList<>(List.of("java", "-cp", JARS + ":" + folder));
        command.addAll(List.of(words));
        return new ProcessBuilder(command);
    }

    @Test void visits() throws Exception {
        List<String> told = lines(java(compiled("Visits"), "-Djentry.program=" + PROGRAM, "Visits"));
        assertEquals(List.of("page 1: 42", "page 1: 43", "page 2: 1", "page 2 is new: false", "status 0"), told);
    }

    @Test void tenLinesThatKnowTheApiAlone() throws Exception {
        List<String> told = lines(java(compiled("Brief"), "-Djentry.program=" + PROGRAM, "Brief"));
        assertEquals(List.of("42 44 false", "status 0"), told);
        List<String> source = Files.readAllLines(Path.of(System.getProperty("jentry.examples"), "Brief.java"));
        assertEquals(10, source.stream().filter(line -> !line.isEmpty() && !line.startsWith("import ")).count());
    }

    @Test void theDefaultUriIsASystemProperty() throws Exception {
        assertEquals(List.of("42 44 false", "status 0"), lines(java(compiled("Brief"), "-Djentry.uri=jentry:" + PROGRAM, "Brief")));
    }

    @Test void theProviderAsAModule() throws Exception {
        String[] jars = JARS.split(":");
        Path api = Temporary.folder().resolve("cache-api.jar");
        Files.copy(Path.of(jars[0]), api);
        List<String> told = lines(new ProcessBuilder("java", "-p", api + ":" + jars[1], "--add-modules", "jentry.jcache", "-cp",
            compiled("Brief").toString(), "-Djentry.program=" + PROGRAM, "Brief"));
        assertEquals(List.of("42 44 false", "status 0"), told);
        told = lines(new ProcessBuilder("java", "-p", api + ":" + jars[1], "--describe-module", "jentry.jcache"));
        assertEquals(List.of("exports jentry.jcache"), told.stream().filter(it -> it.startsWith("exports")).toList());
    }

    @Test void theProgramIsFoundOnThePath() throws Exception {
        Path folder = compiled("Brief");
        Files.createSymbolicLink(folder.resolve("jentry"), Path.of(PROGRAM));
        ProcessBuilder command = java(folder, "Brief");
        command.environment().merge("PATH", folder.toString(), (old, more) -> more + ":" + old);
        assertEquals(List.of("42 44 false", "status 0"), lines(command));
    }
}
