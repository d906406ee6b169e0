package jentry.compiler;

import static org.junit.jupiter.api.Assertions.assertEquals;
import static org.junit.jupiter.api.Assertions.assertTrue;

import java.util.List;
import java.util.Map;
import java.util.TreeMap;
import org.junit.jupiter.api.BeforeAll;
import org.junit.jupiter.api.Tag;
import org.junit.jupiter.api.Test;
import org.junit.jupiter.params.ParameterizedTest;
import org.junit.jupiter.params.provider.CsvSource;

/** Tests processors with loops against a table of the resulting bytes and bounds. */
class TableTest {
    private static final Map<String, byte[]> CLASSES = new TreeMap<>();
    private static final long MOST_STEPS = 4_000_000;

    @BeforeAll
    static void compileSources() {
        Map<String, String> sources = Javac.sources(Javac.HERE.resolve("processors"));
        Map<String, String> newer = Map.of("Newer", sources.remove("Newer"));
        CLASSES.putAll(Javac.compile(sources, "--release", "8"));
        CLASSES.putAll(Javac.compile(newer, "--release", "17"));
    }

    @ParameterizedTest
    @CsvSource({
        "BitCount, 1172, 2846, 920, 595, 0, 17, 16", "Crc, 1280, 3338, 1192, 867, 0, 16, 15", "Search, 1535, 1708, 236, 181, 22, 19, 19",
        "SumOfAll, 1288, 1618, 167, 146, 0, 19, 19", "Transpose, 1207, 3718, 1832, 657, 0, 21, 17", "Power, 1276, 5157, 1995, 1671, 0, 22, 21",
        "Root, 1074, 3767, 1108, 888, 0, 21, 21", "Median, 1282, 2889, 1025, 696, 9, 21, 21", "Greatest, 1192, 1782, 419, 290, 0, 19, 17",
        "Checksum2, 1703, 1619, 390, 228, 9, 23, 22", "Matrix2, 1002, 5760, 162010, 111003, 0, 21, 19", "Limits, 1817, 2924, 400, 367, 6, 40, 40",
        "Newer, 1067, 1206, 247, 226, 0, 21, 21",
        "Digits, 887, 1498, 299, 276, 0, 13, 13"})
    void boundsAreThoseOfTheTable(String name, int before, int after, long loops, long steps, long words, long slotsWithLoops, long slots) throws Exception {
        byte[] original = CLASSES.get(name);
        assertEquals(before, original.length, "bytes of the original");
        CompiledClass folded = Checks.compile(original);
        assertEquals(List.of((long) after, loops, steps, words, slots), List.of((long) folded.bytes().length, folded.stepsWithLoops(), folded.bounds().steps(),
            folded.bounds().words(), folded.bounds().slots()), "bytes, steps with loops, steps, words, slots");
        CompiledClass verbatim = new ProcessorCompiler(true).compile(original).get(0);
        assertEquals(List.of(loops, slotsWithLoops), List.of(verbatim.bounds().steps(), verbatim.bounds().slots()), "steps and slots of the verbatim class");
        assertEquals(loops, verbatim.stepsWithLoops(), "the steps that the search found");
        Checks.same(original, folded, 100_000);
        Checks.same(original, verbatim, 100_000);
    }

    @Test
    void aClassOf1650PassesFits() {
        CompiledClass far = Checks.compile(CLASSES.get("Far"));
        assertEquals(List.of(61_674L, 31_365L, 24_753L, 13L), List.of((long) far.bytes().length, far.stepsWithLoops(), far.bounds().steps(), far.bounds().slots()));
        Checks.same(CLASSES.get("Far"), far, 100_000);
    }

    @Test
    void lambdasBecomeClasses() throws Exception {
        ProcessorCompiler.Result result = new ProcessorCompiler().compileAll(CLASSES.get("Client"));
        assertEquals(List.of("Client$lambda$add$0", "Client$lambda$digit$1", "Client$lambda$more$2"), result.classes().stream().map(CompiledClass::name).toList());
        assertEquals(List.of(150L, 129L, 17L, 102L, 72L, 15L, 23L, 23L, 25L), result.classes().stream()
            .flatMap(it -> List.of(it.stepsWithLoops(), it.bounds().steps(), it.bounds().slots()).stream()).toList());
        for (CompiledClass compiled : result.classes()) {
            Checks.same(CLASSES.get("Client"), compiled, 100_000);
        }
        assertEquals(List.of(), result.problems());
    }

    @Test
    void whatStaysRefusedIsToldByItsLine() {
        assertTrue(Checks.refusal(CLASSES.get("Matrix")).startsWith("Matrix.process, line 9: this loop has too many passes"));
    }

    @Test
    @Tag("server")
    void theServerDoesWhatHotSpotDoes() throws Exception {
        try (JentryServer server = new JentryServer(Javac.PROGRAM)) {
            for (String name : CLASSES.keySet()) {
                for (boolean isVerbatim : new boolean[] {false, true}) {
                    for (CompiledClass compiled : new ProcessorCompiler(isVerbatim).compileAll(CLASSES.get(name)).classes()) {
                        int calls = (int) Math.min(400, MOST_STEPS / compiled.bounds().steps());
                        Checks.sameByServer(server, CLASSES.get(name), compiled, calls);
                    }
                }
            }
        }
    }
}
