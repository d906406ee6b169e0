package jentry.compiler;

import static org.junit.jupiter.api.Assertions.assertArrayEquals;
import static org.junit.jupiter.api.Assertions.assertEquals;
import static org.junit.jupiter.api.Assertions.assertFalse;
import static org.junit.jupiter.api.Assertions.assertTrue;

import java.nio.file.Files;
import java.nio.file.Path;
import java.util.EnumMap;
import java.util.List;
import java.util.Map;
import java.util.TreeMap;
import jentry.compiler.compare.Call;
import jentry.compiler.compare.Outcome;
import jentry.compiler.compare.RandomCalls;
import jentry.compiler.compare.Runner;
import org.junit.jupiter.api.Tag;
import org.junit.jupiter.api.Test;

/** Tests Booleans: results, arguments, boxes and casts pass through the compiler, and the server runs them like HotSpot. */
class BooleansTest {
    private static final Path TOP = Javac.HERE.resolve("../..");
    private static final int CALLS = 1_000;
    /** The number of calls of each class that have to return true, and false. */
    private static final int LEAST = 25;

    private enum End { TRUE, FALSE, OTHER, THREW }

    /** Returns the class files of the repository that name Boolean and are accepted, and some of this test. */
    private static Map<String, byte[]> classes() throws Exception {
        Map<String, byte[]> classes = new TreeMap<>();
        for (String file : List.of("examples/Reserve", "tests/program/classes/BooleanResult", "tests/program/classes/BoxesBoolean")) {
            classes.put(file, Files.readAllBytes(TOP.resolve(file + ".class")));
        }
        add(classes, "Own", "boolean below = isBelow((Long) args[0], (Boolean) args[1]); Boolean box = below; return not(box);",
            "private boolean isBelow(long limit, boolean equals) { return equals ? limit >= 7 : limit > 7; }\nstatic Boolean not(Boolean it) { return !it; }");
        add(classes, "Tests", "Object it = args[0]; if (it instanceof Boolean) { return (Boolean) it; } return it instanceof Long && (Long) it > 0;", "");
        add(classes, "Chooses", "Boolean one = (Boolean) args[0]; Boolean other = null; if (entry.exists()) { other = (Boolean) args[1]; }\n"
            + "return other == null ? one : other;", "");
        return classes;
    }

    private static void add(Map<String, byte[]> classes, String name, String body, String members) {
        classes.put(name, Javac.compile(name, Javac.processor(name, "Boolean", body, members), "--release", "8"));
    }

    @Test
    void whatIsAcceptedStaysToTheByte() throws Exception {
        for (Map.Entry<String, byte[]> one : classes().entrySet()) {
            CompiledClass compiled = Checks.compile(one.getValue());
            assertTrue(compiled.isUnchanged(), one.getKey());
            assertArrayEquals(one.getValue(), compiled.bytes(), one.getKey());
        }
    }

    @Test
    @Tag("server")
    void theServerRunsThemLikeHotSpot() throws Exception {
        try (JentryServer server = new JentryServer(Javac.PROGRAM)) {
            for (Map.Entry<String, byte[]> one : classes().entrySet()) {
                Map<End, Integer> ends = ends(one.getValue());
                assertTrue(ends.get(End.TRUE) >= LEAST && ends.get(End.FALSE) >= LEAST, one.getKey() + ": " + ends);
                Checks.sameByServer(server, one.getValue(), Checks.compile(one.getValue()), CALLS);
            }
        }
    }

    /** Returns how the calls of {@link Checks#sameByServer} end on HotSpot. */
    private static Map<End, Integer> ends(byte[] classFile) throws ReflectiveOperationException {
        String source = Checks.compile(classFile).source();
        Runner runner = new Runner(Checks.PATH, classFile, source);
        RandomCalls random = new RandomCalls(classFile, source, 11);
        Map<End, Integer> ends = new EnumMap<>(End.class);
        for (End end : End.values()) {
            ends.put(end, 0);
        }
        for (int i = 0; i < CALLS; i++) {
            Call call = random.next();
            Outcome outcome = runner.run(call);
            End end = outcome.thrown() != null ? End.THREW : !(outcome.result() instanceof Boolean it) ? End.OTHER : it ? End.TRUE : End.FALSE;
            ends.merge(end, 1, Integer::sum);
        }
        return ends;
    }

    @Test
    @Tag("server")
    void whatIsRewrittenBesideThemRunsLikeHotSpot() throws Exception {
        Map<String, byte[]> classes = new TreeMap<>();
        add(classes, "Loops", "boolean all = true;\nfor (Object one : args) { all &= one instanceof Boolean ? (Boolean) one : (Long) one > 0; }\nreturn all;", "");
        add(classes, "Equal", "return Objects.equals(args[0], args[1]) || Boolean.TRUE.equals(args[2]);", "");
        try (JentryServer server = new JentryServer(Javac.PROGRAM)) {
            for (Map.Entry<String, byte[]> one : classes.entrySet()) {
                CompiledClass compiled = Checks.compile(one.getValue());
                assertFalse(compiled.isUnchanged(), one.getKey());
                Checks.same(one.getValue(), compiled, 20_000);
                Checks.sameByServer(server, one.getValue(), compiled, CALLS);
            }
        }
    }

    @Test
    void aLambdaMayReturnABoolean() throws Exception {
        String source = "import javax.cache.processor.*;\npublic class Host {\n"
            + "static final EntryProcessor<Long, Long, Boolean> HAS = (e, a) -> e.exists();\n"
            + "static final EntryProcessor<Long, Long, Boolean> TESTS = Host::test;\n"
            + "static boolean test(MutableEntry<Long, Long> e, Object[] a) { return e.exists() && (Boolean) a[0]; }\n}\n";
        List<CompiledClass> compiled = new ProcessorCompiler().compile(Javac.compile("Host", source, "--release", "8"));
        assertEquals(2, compiled.size());
        for (CompiledClass one : compiled) {
            Object result = new Runner(Checks.PATH, one.bytes(), one.name()).run(new Call(7, 41L, true)).result();
            assertEquals(true, result, one.source());
        }
    }
}
