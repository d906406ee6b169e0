package jentry.compiler;

import static org.junit.jupiter.api.Assertions.assertEquals;
import static org.junit.jupiter.api.Assertions.assertTrue;

import java.nio.file.Files;
import java.nio.file.Path;
import java.util.Map;
import java.util.concurrent.TimeUnit;
import org.junit.jupiter.api.Test;
import org.junit.jupiter.api.io.TempDir;

/** Tests the time and the memory of the command, including the start of its JVM. It measures CPU time, because other work may share the machine. */
class ScaleTest {
    @TempDir
    private Path folder;

    /** Returns the seconds of CPU time, and checks the status and the output. */
    private double seconds(int status, String told, String name, String source) throws Exception {
        Map<String, byte[]> classes = Javac.compile(Map.of(name, source), "--release", "8");
        Path in = Files.write(folder.resolve(name + ".class"), classes.get(name));
        String java = Path.of(System.getProperty("java.home"), "bin/java").toString();
        Process process = new ProcessBuilder(java, "-Xmx512m", "-XX:+UseSerialGC", "-XX:TieredStopAtLevel=1", "-jar", System.getProperty("jentry.jar"),
            in.toString(), "-d", folder.resolve("out").toString()).redirectErrorStream(true).start();
        ProcessHandle handle = process.toHandle();
        double spent = 0;
        while (!process.waitFor(10, TimeUnit.MILLISECONDS)) {
            spent = handle.info().totalCpuDuration().map(it -> it.toNanos() / 1e9).orElse(spent);
        }
        String printed = new String(process.getInputStream().readAllBytes());
        assertEquals(status, process.exitValue(), printed);
        assertTrue(printed.contains(told), printed);
        return spent;
    }

    @Test
    void aClassOf1650PassesTakesLessThanTwoSeconds() throws Exception {
        double seconds = seconds(0, "61674", "Far", Files.readString(Javac.HERE.resolve("processors/Far.java")));
        assertTrue(seconds < 2, seconds + " s");
    }

    @Test
    void oneThatExplodesIsToldSoon() throws Exception {
        double seconds = seconds(2, "line 9: this loop has too many passes", "Matrix", Files.readString(Javac.HERE.resolve("processors/Matrix.java")));
        assertTrue(seconds < 5, seconds + " s");
    }

    @Test
    void soIsOneOfManyLocalsAndLoops() throws Exception {
        StringBuilder body = new StringBuilder();
        for (int i = 0; i < 200; i++) {
            body.append("long v").append(i).append(" = entry.getKey() + ").append(i).append(";\n");
        }
        body.append("for (int a = 0; a < 1000; a++) for (int b = 0; b < a; b++) for (int c = 0; c < b; c++) { v0 += v1 ^ v2; if (v3 > v4) { v5++; } }\nreturn v0 + v199;");
        double seconds = seconds(2, "this loop has too many passes", "Huge", Javac.processor("Huge", "Object", body.toString(), ""));
        assertTrue(seconds < 5, seconds + " s");
    }
}
