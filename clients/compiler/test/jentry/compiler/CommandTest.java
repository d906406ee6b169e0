package jentry.compiler;

import static org.junit.jupiter.api.Assertions.assertArrayEquals;
import static org.junit.jupiter.api.Assertions.assertEquals;
import static org.junit.jupiter.api.Assertions.assertFalse;
import static org.junit.jupiter.api.Assertions.assertThrows;
import static org.junit.jupiter.api.Assertions.assertTrue;

import java.io.ByteArrayOutputStream;
import java.io.OutputStream;
import java.io.PrintStream;
import java.nio.file.Files;
import java.nio.file.Path;
import java.util.Map;
import java.util.regex.Matcher;
import java.util.regex.Pattern;
import java.util.zip.ZipEntry;
import java.util.zip.ZipOutputStream;
import jentry.compiler.cli.Main;
import org.junit.jupiter.api.BeforeEach;
import org.junit.jupiter.api.Tag;
import org.junit.jupiter.api.Test;
import org.junit.jupiter.api.io.TempDir;

/** Tests the command line, its messages and its statuses. */
class CommandTest {
    private static final String LOOP = Javac.processor("Loop", "Long", "long s = 0;\nfor (int i = 0; i < 5; i++) {\n s += entry.getKey() ^ i;\n}\nreturn s;", "");
    private static final String PLAIN = Javac.processor("Plain", "Object", "return entry.getKey();", "");
    private static final String BAD = Javac.processor("Bad", "Object", "long x = entry.getKey();\nwhile (x > 0) {\n x ^= 2;\n}\nreturn x;", "");

    @TempDir
    private Path folder;

    private Path in;
    private Path out;
    private String printed;
    private String errors;

    @BeforeEach
    void write() throws Exception {
        in = Files.createDirectories(folder.resolve("in"));
        out = folder.resolve("out");
        for (Map.Entry<String, byte[]> one : Javac.compile(Map.of("Loop", LOOP, "Plain", PLAIN, "Other", "public class Other { }"), "--release", "8").entrySet()) {
            Files.write(in.resolve(one.getKey() + ".class"), one.getValue());
        }
    }

    private int run(Object... words) {
        ByteArrayOutputStream told = new ByteArrayOutputStream();
        ByteArrayOutputStream wrong = new ByteArrayOutputStream();
        String[] texts = java.util.Arrays.stream(words).map(String::valueOf).toArray(String[]::new);
        int status = Main.run(new PrintStream(told), new PrintStream(wrong), texts);
        printed = told.toString();
        errors = wrong.toString();
        return status;
    }

    @Test
    void aFolderIsCompiled() throws Exception {
        assertEquals(0, run(in, "-d", out, "--explain", "--compare=500"), errors);
        assertTrue(printed.contains("Plain: unchanged, steps="), printed);
        assertTrue(printed.contains("process, line 5: a loop, 5 passes written out"), printed);
        assertTrue(printed.contains("500 calls compared, none differs"), printed);
        assertTrue(printed.contains("1 class files without a processor left out"), printed);
        assertArrayEquals(Files.readAllBytes(in.resolve("Plain.class")), Files.readAllBytes(out.resolve("Plain.class")));
        assertFalse(Files.exists(out.resolve("Other.class")));
    }

    @Test
    void aJarIsCompiled() throws Exception {
        Path jar = folder.resolve("classes.jar");
        try (OutputStream file = Files.newOutputStream(jar); ZipOutputStream zip = new ZipOutputStream(file)) {
            zip.putNextEntry(new ZipEntry("Loop.class"));
            zip.write(Files.readAllBytes(in.resolve("Loop.class")));
        }
        assertEquals(0, run("-d", out, jar, "--compare"), errors);
        assertTrue(Files.exists(out.resolve("Loop.class")));
    }

    @Test
    void packagesBecomeFolders() throws Exception {
        byte[] packed = Javac.compile(Map.of("a.b.Packed", "package a.b; " + PLAIN.replace("Plain", "Packed"))).get("a.b.Packed");
        assertEquals(0, run(Files.write(in.resolve("x.class"), packed), "-d", out), errors);
        assertTrue(Files.exists(out.resolve("a/b/Packed.class")));
    }

    @Test
    void whatIsComparedReachesItsPackage() throws Exception {
        String host = "package a;\nimport javax.cache.processor.*;\npublic class Host extends Base {\nstatic final int COUNT = Other.count();\n"
            + "static final EntryProcessor<Long, Long, Long> P = (e, args) -> e.getKey() + 1;\nprivate static class Nested { static int two() { return one(); } }\n"
            + "private static int one() { return Nested.two() > 5 ? 2 : 1; }\n}\nclass Base { }\nclass Other { static int count() { return 3; } }\n";
        for (String release : new String[] {"8", "17"}) {
            for (Map.Entry<String, byte[]> one : Javac.compile(Map.of("a.Host", host), "--release", release).entrySet()) {
                Path file = in.resolve(one.getKey().replace('.', '/') + ".class");
                Files.createDirectories(file.getParent());
                Files.write(file, one.getValue());
            }
            assertEquals(0, run(in, "-d", out, "--explain", "--compare=500"), errors);
            assertTrue(printed.contains("a.Host$lambda$static$0: ") && printed.contains("500 calls compared, none differs"), printed);
        }
    }

    private static byte[] window(String result) {
        return Javac.compile("Window", Javac.processor("Window", "Long", "int start = (Integer) args[0];\nint width = (Integer) args[1];\n"
            + "Object step = args[2];\nint by = (Integer) step;\nint most = at(args, 3);\nlong sum = 0;\nfor (int i = 0; i < 4; i++) {\n"
            + "sum += Math.min(most, start + width * i + by);\n}\nreturn " + result + ";", "static int at(Object[] all, int i) { return (Integer) all[i]; }"),
            "--release", "8");
    }

    private int returned() {
        Matcher matcher = Pattern.compile("10000 calls compared, none differs: (\\d+) returned, (\\d+) threw").matcher(printed);
        assertTrue(matcher.find(), printed);
        assertEquals(10_000, Integer.parseInt(matcher.group(1)) + Integer.parseInt(matcher.group(2)));
        return Integer.parseInt(matcher.group(1));
    }

    @Test
    void argumentsHaveTheKindsThatTheClassCastsTo() throws Exception {
        assertEquals(0, run(Files.write(in.resolve("Window.class"), window("sum")), "-d", out, "--compare"), errors);
        assertTrue(returned() >= 5_000, printed);
        assertEquals("", errors);
    }

    @Test
    void aDifferenceAfterFourCastsIsFound() throws Exception {
        CompiledClass wrong = Checks.compile(window("sum + (sum > 100 ? 1 : 0)"));
        AssertionError found = assertThrows(AssertionError.class, () -> Checks.same(window("sum"), wrong, 10_000));
        assertTrue(found.getMessage().contains("the original returns"), found.getMessage());
    }

    @Test
    void argumentsOfALambdaAreThoseOfItsBody() throws Exception {
        String host = "import javax.cache.processor.*;\npublic class Two {\nstatic EntryProcessor<Long, Long, Long> one() {\n"
            + "return (e, args) -> { long s = 0; for (int i = 0; i < 3; i++) { s += (Integer) args[i]; } return s; };\n}\n"
            + "static EntryProcessor<Long, Long, Long> other() {\nreturn (e, args) -> { long s = 0; for (Object it : args) { s += (Long) it; } return s; };\n}\n}\n";
        assertEquals(0, run(Files.write(in.resolve("Two.class"), Javac.compile("Two", host, "--release", "8")), "-d", out, "--compare"), errors);
        for (String one : printed.split("Two\\$lambda")) {
            printed = one;
            assertTrue(one.isEmpty() || returned() >= 5_000, printed);
        }
    }

    @Test
    void fewCallsThatReturnAreAWarning() throws Exception {
        String seldom = Javac.processor("Seldom", "Long", "long s = 0;\nfor (int i = 0; i < 3; i++) {\ns += entry.getKey() / (entry.getKey() == 77 ? 1 : 0);\n}\n"
            + "return s;", "");
        assertEquals(0, run(Files.write(in.resolve("Seldom.class"), Javac.compile("Seldom", seldom, "--release", "8")), "-d", out, "--compare"), errors);
        assertTrue(returned() < 1_000, printed);
        assertTrue(errors.startsWith("jentry-compile: warning: Seldom: only " + returned() + " of 10000 calls returned"), errors);
    }

    @Test
    void oneThatCantBeCompiledLeavesTheOthers() throws Exception {
        Files.write(in.resolve("Bad.class"), Javac.compile("Bad", BAD, "--release", "8"));
        assertEquals(2, run(in, "-d", out));
        assertTrue(errors.startsWith("jentry-compile: Bad.process, line 5: no counter ends this loop; count the passes"), errors);
        assertTrue(Files.exists(out.resolve("Loop.class")));
        assertFalse(Files.exists(out.resolve("Bad.class")));
    }

    @Test
    void theOriginalIsntOverwritten() throws Exception {
        byte[] before = Files.readAllBytes(in.resolve("Loop.class"));
        assertEquals(3, run(in, "-d", in));
        assertTrue(errors.contains("is the original: name another folder"), errors);
        assertArrayEquals(before, Files.readAllBytes(in.resolve("Loop.class")));
    }

    @Test
    void badWords() {
        assertEquals(1, run());
        assertTrue(errors.contains("name a class file, a folder or a jar"), errors);
        assertEquals(1, run(in));
        assertTrue(errors.contains("by -d"), errors);
        assertEquals(1, run(in, "-d"));
        assertEquals(1, run(in, "-d", out, "--fast"));
        assertTrue(errors.contains("there is no option --fast"), errors);
        assertEquals(1, run(in, "-d", out, "--compare=none"));
        assertEquals(1, run(in, "-d", out, "--explain=yes"));
        assertEquals(3, run(folder.resolve("missing.class"), "-d", out));
        assertTrue(errors.contains("missing.class can't be read"), errors);
        assertEquals(2, run(in.resolve("Other.class"), "-d", out));
        assertTrue(errors.contains("there is no EntryProcessor"), errors);
    }

    @Test
    void helpAndVersion() {
        assertEquals(0, run("--help"));
        for (String option : new String[] {"-d", "--explain", "--verbatim", "--check", "--program", "--compare", "--seed", "--classpath", "--help, --version"}) {
            assertTrue(printed.contains("  " + option), option);
        }
        assertEquals(0, run("--version"));
        assertTrue(printed.startsWith("jentry-compile "), printed);
    }

    @Test
    void aProgramThatIsntThere() {
        assertEquals(3, run(in, "-d", out, "--check", "--program", folder.resolve("none")));
        assertTrue(errors.contains("can't be run (name it by --program or JENTRY_PROGRAM)"), errors);
    }

    @Test
    @Tag("server")
    void theProgramChecks() {
        assertEquals(0, run(in, "-d", out, "--check", "--program", Javac.PROGRAM), errors);
        assertTrue(printed.contains("  accepted steps="), printed);
    }

    @Test
    void theJarWorksAlone() throws Exception {
        String java = Path.of(System.getProperty("java.home"), "bin/java").toString();
        Process process = new ProcessBuilder(java, "-XX:+UseSerialGC", "-jar", System.getProperty("jentry.jar"), in.toString(), "-d", out.toString(), "--compare")
            .redirectErrorStream(true).start();
        String told = new String(process.getInputStream().readAllBytes());
        assertEquals(0, process.waitFor(), told);
        assertTrue(told.contains("Loop: "), told);
    }
}
