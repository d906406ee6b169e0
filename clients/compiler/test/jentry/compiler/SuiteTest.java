package jentry.compiler;

import static org.junit.jupiter.api.Assertions.assertEquals;
import static org.junit.jupiter.api.Assertions.assertTrue;

import java.io.IOException;
import java.nio.file.Files;
import java.nio.file.Path;
import java.util.ArrayList;
import java.util.List;
import java.util.Map;
import java.util.TreeMap;
import jentry.compiler.compare.Comparison;
import jentry.compiler.profile.Problem;
import org.junit.jupiter.api.BeforeAll;
import org.junit.jupiter.api.Tag;
import org.junit.jupiter.api.Test;
import org.junit.jupiter.api.io.TempDir;

/**
 * Tests the processors of test/suite against test/suite/verdicts.tsv: what each needs beside plain code, whether it is accepted as javac made it, by the
 * compiler, by the Java client, which has the object that it sends, or refused, and why.
 *
 * <p>Prints a table by feature. With -Djentry.suite=write (`run-tests PROGRAM --write-suite`) the file gets the verdicts of today.
 */
class SuiteTest {
    private static final Path TABLE = Javac.HERE.resolve("test/suite/verdicts.tsv");
    private static final String HEADER = "processor\tneeds\tverdict\treason\n";
    private static final int CALLS = 4_000;

    @TempDir
    private static Path folder;

    private static Suite suite;
    private static final Map<String, Row> ROWS = new TreeMap<>();
    private static final Map<String, CompiledClass> COMPILED = new TreeMap<>();

    /** The objects of those that are accepted for one object alone. */
    private static final Map<String, Object> OBJECTS = new TreeMap<>();

    /**
     * A row of the table.
     *
     * @param needs features, separated by commas
     * @param verdict `javac`, `compiler`, `client` or `refused`
     * @param reason why it is refused, else empty
     */
    private record Row(String needs, String verdict, String reason) { }

    @BeforeAll
    static void compile() throws ReflectiveOperationException {
        suite = new Suite(folder);
        Map<String, Row> known = known();
        for (Suite.Processor processor : suite.processors()) {
            String needs = known.containsKey(processor.name()) ? known.get(processor.name()).needs : "?";
            try {
                CompiledClass compiled = processor.compile();
                COMPILED.put(processor.name(), compiled);
                ROWS.put(processor.name(), new Row(needs, compiled.isUnchanged() ? "javac" : "compiler", ""));
            } catch (CompileException e) {
                boolean isSent = compileObject(processor);
                ROWS.put(processor.name(), new Row(needs, isSent ? "client" : "refused", isSent ? "" : reason(e.problems())));
            }
        }
        if ("write".equals(System.getProperty("jentry.suite"))) {
            write();
        }
    }

    private static boolean compileObject(Suite.Processor processor) throws ReflectiveOperationException {
        Object object = suite.object(processor);
        try {
            if (object != null) {
                COMPILED.put(processor.name(), new ProcessorCompiler(false, processor.program()).compileClass(processor.classFile(), object));
                OBJECTS.put(processor.name(), object);
            }
            return object != null;
        } catch (CompileException e) {
            return false;
        }
    }

    private static String reason(List<Problem> problems) {
        Problem first = problems.get(0);
        return (first.line() < 0 ? "" : "line " + first.line() + ": ") + first.what();
    }

    private static Map<String, Row> known() {
        Map<String, Row> rows = new TreeMap<>();
        try {
            for (String line : Files.exists(TABLE) ? Files.readAllLines(TABLE) : List.<String>of()) {
                String[] parts = line.split("\t", -1);
                if (!parts[0].equals("processor")) {
                    rows.put(parts[0], new Row(parts[1], parts[2], parts[3]));
                }
            }
        } catch (IOException e) {
            throw new java.io.UncheckedIOException(e);
        }
        return rows;
    }

    private static void write() {
        StringBuilder text = new StringBuilder(HEADER);
        ROWS.forEach((name, row) -> text.append(String.join("\t", name, row.needs, row.verdict, row.reason)).append('\n'));
        try {
            Files.writeString(TABLE, text);
        } catch (IOException e) {
            throw new java.io.UncheckedIOException(e);
        }
    }

    @Test
    void verdictsAreThoseOfTheTable() {
        assertTrue(ROWS.size() >= 150, ROWS.size() + " processors");
        assertEquals(lines(known()), lines(ROWS), "rewrite the table by --write-suite if the new verdicts are right");
    }

    private static String lines(Map<String, Row> rows) {
        StringBuilder text = new StringBuilder();
        rows.forEach((name, row) -> text.append(name).append(' ').append(row).append('\n'));
        return text.toString();
    }

    @Test
    void eachNamesWhatItNeeds() {
        ROWS.forEach((name, row) -> assertTrue(row.needs.matches("[a-z ]+(, [a-z ]+)*"), name + " needs " + row.needs));
    }

    @Test
    void acceptedOnesDoWhatTheyDid() throws Exception {
        List<String> few = new ArrayList<>();
        long calls = 0;
        long returned = 0;
        for (Suite.Processor processor : suite.processors()) {
            CompiledClass compiled = COMPILED.get(processor.name());
            if (compiled == null || compiled.isUnchanged()) {
                continue;
            }
            Comparison.Report report = Comparison.compare(suite.path(), processor.classFile(), compiled, OBJECTS.get(processor.name()), CALLS, 3);
            assertTrue(report.difference().isEmpty(), processor.name() + ": " + report.difference());
            assertTrue(report.calls() >= Comparison.Report.FEW, processor.name() + ": " + report);
            calls += report.calls();
            returned += report.returned();
            if (report.returned() < Comparison.Report.FEW) {
                few.add(processor.name() + " " + report.returned());
            }
        }
        System.out.println("suite: " + calls + " calls compared with HotSpot, " + returned + " returned; fewer than " + Comparison.Report.FEW + " of "
            + CALLS + ": " + few);
        assertTrue(returned > calls / 2, returned + " of " + calls + " calls returned");
        assertTrue(few.size() <= 6, "too few calls returned: " + few);
    }

    @Test
    @Tag("server")
    void theServerDoesTheSame() throws Exception {
        try (JentryServer server = new JentryServer(Javac.PROGRAM)) {
            for (Suite.Processor processor : suite.processors()) {
                CompiledClass compiled = COMPILED.get(processor.name());
                if (compiled != null) {
                    Checks.sameByServer(server, suite.path(), processor.classFile(), compiled, OBJECTS.get(processor.name()), 100);
                }
            }
        }
    }

    @Test
    void printTheTable() {
        Map<String, int[]> byFeature = new TreeMap<>();
        int[] all = new int[5];
        for (Row row : ROWS.values()) {
            for (String need : (row.needs + ", all").split(", ")) {
                int[] counts = need.equals("all") ? all : byFeature.computeIfAbsent(need, it -> new int[5]);
                counts[0]++;
                counts[List.of("", "javac", "compiler", "client", "refused").indexOf(row.verdict)]++;
            }
        }
        System.out.printf("suite: %-24s %5s %6s %9s %7s %8s%n", "needs", "all", "javac", "compiler", "client", "refused");
        byFeature.forEach(SuiteTest::printRow);
        printRow("all", all);
        assertEquals(ROWS.size(), all[1] + all[2] + all[3] + all[4]);
        assertTrue(100 * (ROWS.size() - all[4]) >= 85 * ROWS.size(), all[4] + " of " + ROWS.size() + " are refused");
    }

    private static void printRow(String name, int[] counts) {
        System.out.printf("suite: %-24s %5d %6d %9d %7d %8d%n", name, counts[0], counts[1], counts[2], counts[3], counts[4]);
    }
}
