package jentry.compiler;

import static org.junit.jupiter.api.Assertions.assertEquals;
import static org.junit.jupiter.api.Assertions.assertTrue;

import java.io.IOException;
import java.nio.file.Files;
import java.nio.file.Path;
import java.util.ArrayList;
import java.util.List;
import java.util.Map;
import java.util.TreeMap;
import jentry.compiler.compare.ClassPath;
import jentry.compiler.compare.Comparison;
import jentry.compiler.link.Capture;
import org.junit.jupiter.api.AfterAll;
import org.junit.jupiter.api.BeforeAll;
import org.junit.jupiter.api.Tag;
import org.junit.jupiter.api.Test;
import org.junit.jupiter.api.io.TempDir;
import org.junit.jupiter.params.ParameterizedTest;
import org.junit.jupiter.params.provider.CsvSource;

/** Tests the processors of test/linked, which hold values, or use other classes. */
class LinkedTest {
    private static final int CALLS = 4_000;
    private static final int LEAST_RETURNED = 1_000;

    @TempDir
    static Path folder;

    private static final Map<String, byte[]> CLASSES = new TreeMap<>();
    private static final Map<String, CompiledClass> COMPILED = new TreeMap<>();
    private static final Map<String, byte[]> ORIGINALS = new TreeMap<>();
    private static ClassPath path;

    @BeforeAll
    static void compileSources() throws Exception {
        Map<String, String> sources = Javac.sources(Javac.HERE.resolve("test/linked"));
        Javac.sources(Javac.HERE.resolve("test/linked/tools")).forEach((name, text) -> sources.put("tools." + name, text));
        write(Javac.compile(sources, "--release", "17", "-g"));
        path = path();
        ProcessorCompiler compiler = new ProcessorCompiler(false, ProgramClasses.of(path.loader(), false));
        List<String> problems = new ArrayList<>();
        for (Map.Entry<String, byte[]> one : CLASSES.entrySet()) {
            if (compiler.hasProcessors(one.getValue())) {
                ProcessorCompiler.Result result = compiler.compileAll(one.getValue());
                result.problems().forEach(it -> problems.add(it.toString()));
                result.classes().forEach(it -> COMPILED.put(it.source().replaceFirst("\\(.*", ""), it));
                result.classes().forEach(it -> ORIGINALS.put(it.source().replaceFirst("\\(.*", ""), one.getValue()));
            }
        }
        assertEquals(List.of(), problems);
    }

    private static void write(Map<String, byte[]> classes) throws IOException {
        CLASSES.putAll(classes);
        for (Map.Entry<String, byte[]> one : classes.entrySet()) {
            Path file = folder.resolve(one.getKey().replace('.', '/') + ".class");
            Files.createDirectories(file.getParent());
            Files.write(file, one.getValue());
        }
    }

    private static ClassPath path() {
        return new ClassPath(folder + java.io.File.pathSeparator + Javac.api());
    }

    @AfterAll
    static void forget() {
        CLASSES.clear();
    }

    @Test
    void allOfThemAreCompiled() {
        assertTrue(COMPILED.size() >= 25, COMPILED.keySet().toString());
        assertTrue(COMPILED.values().stream().noneMatch(CompiledClass::isUnchanged), COMPILED.keySet().toString());
    }

    /** The values in front of the arguments: which ones, and in which order. */
    @ParameterizedTest
    @CsvSource({"Held$AddN,n (long)", "Held$Arguments,limit (long);isNegated (boolean)", "Held$Sorted,limit (long)", "Held$Checked,window (long);share (long)",
        "Held$Nested,pair.first.low (long);pair.first.high (long);pair.shift (int);pair.second.low (long);pair.second.high (long)",
        "Held$Inner,this$0.rate (long);mine (long)", "Bases$Clamped,limit (long)", "Bases$Further,", "Bases$Statics,", "Bases$Tax,", "Enums$Machine,", "Values$Moves,",
        "Enums$Moves,to (Enums$State)"})
    void whatIsPassed(String name, String values) {
        List<String> hidden = COMPILED.get(name).captures().hidden().stream().map(Capture::toString).toList();
        assertEquals(values == null ? List.of() : List.of(values.split(";")), hidden);
    }

    @Test
    void theyDoWhatTheyDid() throws Exception {
        for (Map.Entry<String, CompiledClass> one : COMPILED.entrySet()) {
            Comparison.Report report = Comparison.compare(path, ORIGINALS.get(one.getKey()), one.getValue(), CALLS, 5);
            assertTrue(report.difference().isEmpty(), () -> one.getKey() + ": " + report.difference().get());
            assertTrue(report.returned() >= LEAST_RETURNED, one.getKey() + ": " + report);
        }
    }

    @Test
    @Tag("server")
    void theServerDoesTheSame() throws Exception {
        try (JentryServer server = new JentryServer(Javac.PROGRAM)) {
            for (Map.Entry<String, CompiledClass> one : COMPILED.entrySet()) {
                Checks.sameByServer(server, path, ORIGINALS.get(one.getKey()), one.getValue(), 100);
            }
        }
    }

    /** What differs from instance to instance, or from run to run, is passed: it isn't read from an instance that the tool makes. */
    @ParameterizedTest
    @CsvSource(delimiter = '|', value = {
        "static long made; final long n = ++made; | n (long)", "static final int[] SEEN = {1}; final int n = SEEN[0]; void hit() { SEEN[0]++; } | n (int)",
        "final long n = System.nanoTime(); | n (long)", "long n = 5; | n (long)", "static long base = 3; final long n = base; | n (long)",
        "static final class Count { static int made; static int next() { return ++made; } } final int n = Count.next(); | n (int)",
        "final long n = java.time.Duration.ofDays(2).toHours(); | ", "static final long DAY = 7; final Long n = Math.max(DAY, 3); |"})
    void whatEachInstanceHasOfItsOwnIsPassed(String members, String values) throws Exception {
        CompiledClass compiled = compiled(members, "return n;");
        assertEquals(values == null ? List.of() : List.of(values), compiled.captures().hidden().stream().map(Capture::toString).toList());
    }

    /** Objects of small classes are numbers as long as nothing uses them as objects. */
    @ParameterizedTest
    @CsvSource(delimiter = '|', value = {
        "record P(int x, int y) { } | P p = new P(1, 2); P q = new P(1, 2); return p == q ? 1 : 2; | ",
        "record P(int x, int y) { } | return new P(1, 2).equals(new P(1, 2)) ? 1 : 2; | ",
        "record P(int x, int y) { } | return new P(1, 2).hashCode(); | ",
        "record P(int x, int y) { } | Object p = new P(1, 2); return p.equals(args[0]) ? 1 : 2; | ",
        "record P(int x, int y) { } | Object p = new P(1, 2); return java.util.Objects.equals(p, args[0]) ? 1 : 2; | ",
        "record P(int x, int y) { } | return new P(1, 2); | ",
        "record P(int x, int y) { } | Object p = args[0]; return p instanceof P q ? q.x() : 2; | ",
        "record P(int x, int y) { } | P p = (P) args[0]; return p.x(); | ",
        "record P(int x, int y) { } | Object p = entry.exists() ? new P(1, 2) : entry.getKey(); return p == null ? 1 : 2; | ",
        "record P(int x, int y) { } | P[] all = {new P(1, 2)}; return all[0].x(); | ",
        "record P(int x, int y) { } | args[0] = new P(1, 2); return args[0]; | ",
        "record P(int x, int y) { } | synchronized (new P(1, 2)) { return 1; } | ",
        "record P(int x, int y) { } final P held = new P(1, 2); | return held.x() + new P(3, 4).x(); | ",
        "record P(long x, int y) { } | return new P(1, 2).x(); | ",
        "record P(int x, int y) { static long made; P { made++; } } | return new P(1, 2).x(); | ",
        "record P(int x, int y) { P { hit(this); } static void hit(P p) { } } | return new P(1, 2).x(); | ",
        "static class P { int x; P(int x) { this.x = x; } } static class Q extends P { Q() { super(2); } } | P p = new Q(); return p.x; | ",
        "interface I { int x(); } record P(int x) implements I { } | I p = new P(1); return p.x(); | ",
        "static final class P { int x; P(int x) { this.x = x; } } | P p = new P(1); p.x = 5; return p.x; | ",
        "static final class P { final int x; P(int x) { this.x = x; } protected void finalize() { } } | return args.length + System.identityHashCode(new P(1)); |"})
    void objectsThatStayObjectsAreRefused(String members, String body, String none) throws Exception {
        String refusal = refusal(members, body);
        assertTrue(refusal.startsWith("R."), body + ": " + refusal);
    }

    private static String refusal(String members, String body) throws Exception {
        try {
            return "compiled " + compiled(members, body);
        } catch (CompileException e) {
            return e.getMessage().replaceAll("R[0-9]+", "R");
        }
    }

    private static CompiledClass compiled(String members, String body) throws Exception {
        String name = "R" + CLASSES.size();
        String source = "import javax.cache.processor.*; import tools.*;\npublic class " + name + " implements EntryProcessor<Long, Long, Object> {\n"
            + members + "\npublic Object process(MutableEntry<Long, Long> entry, Object... args) {\n" + body + "\n}\n}\n";
        write(Javac.compile(folder + java.io.File.pathSeparator + Javac.api(), Map.of(name, source), "--release", "17", "-g"));
        ClassPath now = path();
        return new ProcessorCompiler(false, ProgramClasses.of(now.loader(), false)).compile(CLASSES.get(name)).get(0);
    }

    /** The body of the lambda is in line 5. */
    @ParameterizedTest
    @CsvSource(delimiter = '|', value = {
        "return ++count; | line 5: the lambda captures this, a RR, and the field count is written; ",
        "return (long) names.size(); | line 5: the lambda captures this, a RR, and the processor holds the value of the field names, which is of type java.util.Map; ",
        "return (long) System.identityHashCode(this); | line 5: the lambda captures this, a RR, and an object that the processor holds"})
    void aLambdaThatCapturesThisIsToldSo(String body, String told) throws Exception {
        String name = "R" + CLASSES.size();
        String source = "import javax.cache.processor.*;\nclass " + name + " {\nlong count; java.util.Map<Long, Long> names;\n"
            + "EntryProcessor<Long, Long, Long> made() { return (entry, args) -> {\n" + body + "\n}; }\n}\n";
        write(Javac.compile(Map.of(name, source), "--release", "17"));
        try {
            new ProcessorCompiler(false, ProgramClasses.of(path().loader(), false)).compile(CLASSES.get(name));
            throw new AssertionError("it is compiled");
        } catch (CompileException e) {
            assertTrue(e.getMessage().contains(told.replace("RR", name)), e.getMessage());
        }
    }

    /** The members are in line 3, the body in line 5. */
    @ParameterizedTest
    @CsvSource(delimiter = '|', value = {
        "record P(long x) { } final P a, b; RR(P a, P b) { this.a = a; this.b = b; } | P p = args.length > 0 ? a : b; return p.x(); "
            + "| R.process, line 5: it isn't known at compile time which object this is",
        "record P(long x) { } final P a; RR(P a) { this.a = a; } | P p = args.length > 0 ? a : null; return p == null ? 1 : 2; "
            + "| R.process, line 5: it isn't known at compile time which object this is",
        "record P(long x) { } final P a; RR(P a) { this.a = a; } | Object o = args.length > 0 ? a : args[1]; return o instanceof Long ? 1 : 2; "
            + "| R.process, line 5: it isn't known at compile time which object this is",
        "record P(long x) { } final P a; RR(P a) { this.a = a; } | return a; | R.process, line 5: the result is an object that the processor holds",
        "record P(long x) { } final P a; RR(P a) { this.a = a; } | ((MutableEntry) entry).setValue(a); return 1; | R.process, line 5: an object that the processor holds",
        "final double rate; RR(double rate) { this.rate = rate; } | return (long) rate; "
            + "| R.process, line 5: the processor holds the value of the field rate, which is of type double",
        "long count; RR(long count) { this.count = count; } | return count++; | R.process, line 5: the field count is written",
        "final long[] table; RR(long[] table) { this.table = table; } | return table[0]; | R.process, line 5: the array table is known only when the processor is sent",
        "static final int[][] T = {{1, 2}, {3, 4}}; | T[0][1] = 3; return T[1][0]; | R.process, line 5: ",
        "static final int[][] T = {{1, 2}, {3, 4}}; static void set(int[] row) { row[0] = 5; } void hit() { set(T[0]); } | return T[1][0]; | R.process, line 5: ",
        "static final int[][] T = {{1, 2}, {3}}; | return T[1][0]; | R.process, line 5: ",
        "enum E { A, B } | Object o = args.length > 0 ? E.values()[0] : args[1]; return o instanceof Integer ? 1 : 2; | R.process, line 5: it isn't known at compile",
        "enum E { A, B } | Object o = E.A; return o instanceof Integer ? 1 : 2; | R.process, line 5: a R$E is used as an Object",
        "enum E { A, B } | return E.A; | R.process, line 5: a R$E is used as an Object",
        "| return java.time.LocalDate.ofEpochDay(1); | R.process, line 5: a java.time.LocalDate is used as an Object",
        "| return java.time.LocalDate.now().getYear(); | R.process, line 5: a call of java.time.LocalDate.now, which the server doesn't know",
        "| return java.time.Duration.ofMillis(entry.getKey()).toHours(); | R.process, line 5: a call of java.time.Duration.ofMillis, which the server doesn't know",
        "| return Numbers.seen(1); | tools.Numbers.see, line 32: an element of the array SEEN is written",
        "| Numbers.see(1); return 1; | tools.Numbers.see, line 32: an element of the array SEEN is written",
        "static class Open { static long now = System.nanoTime(); static final long START = System.nanoTime(); } | return Open.START; "
            + "| R.process, line 5: the static field R$Open.START has a value that isn't known at compile time",
        "static class Open { static long now = 5; } | return Open.now; | R.process, line 5: the static field R$Open.now isn't final",
        "final int a, b, c, d, e, f, g, h, i; RR(int x) { a = b = c = d = e = f = g = h = i = x; } | return a + b + c + d + e + f + g + h + i; "
            + "| R: it holds 9 values that change, and an invocation takes 8 arguments: a, b, c, d, e, f, g, h, i"})
    void whatStaysRefused(String members, String body, String told) throws Exception {
        String refusal = refusal(members == null ? "" : members.replace("RR(", "R" + CLASSES.size() + "("), body);
        assertTrue(refusal.startsWith(told), refusal);
    }
}
