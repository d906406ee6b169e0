package jentry.compiler;

import static org.junit.jupiter.api.Assertions.assertEquals;
import static org.junit.jupiter.api.Assertions.assertTrue;

import java.util.ArrayList;
import java.util.List;
import java.util.Map;
import java.util.TreeMap;
import org.junit.jupiter.api.BeforeAll;
import org.junit.jupiter.api.Tag;
import org.junit.jupiter.api.Test;

/** Tests the processors of test/own: bit counting, CRCs, searches, sorting, buckets, windows, boards. */
class OwnProcessorsTest {
    private static final Map<String, byte[]> OLD = new TreeMap<>();
    private static final Map<String, byte[]> NEW = new TreeMap<>();

    @BeforeAll
    static void compileSources() throws CompileException {
        Map<String, String> sources = Javac.sources(Javac.HERE.resolve("test/own"));
        for (Map.Entry<String, byte[]> one : Javac.compile(sources, "--release", "8").entrySet()) {
            if (new ProcessorCompiler().hasProcessors(one.getValue())) {
                OLD.put(one.getKey(), one.getValue());
            }
        }
        for (Map.Entry<String, byte[]> one : Javac.compile(sources, "--release", "17").entrySet()) {
            if (OLD.containsKey(one.getKey())) {
                NEW.put(one.getKey(), one.getValue());
            }
        }
    }

    private static boolean isAccepted(String name) {
        return !name.startsWith("Refused");
    }

    @Test
    void fortyOfThemAreCompiled() {
        assertTrue(OLD.keySet().stream().filter(OwnProcessorsTest::isAccepted).count() >= 40, OLD.keySet().toString());
        List<String> refused = new ArrayList<>();
        for (Map.Entry<String, byte[]> one : OLD.entrySet()) {
            if (isAccepted(one.getKey())) {
                try {
                    new ProcessorCompiler().compile(one.getValue());
                } catch (CompileException e) {
                    refused.add(e.getMessage());
                }
            }
        }
        assertEquals(List.of(), refused);
    }

    @Test
    void theyDoWhatTheyDid() {
        for (Map<String, byte[]> classes : List.of(OLD, NEW)) {
            for (Map.Entry<String, byte[]> one : classes.entrySet()) {
                if (isAccepted(one.getKey())) {
                    Checks.same(one.getValue(), Checks.compile(one.getValue()), 20_000);
                }
            }
        }
    }

    @Test
    @Tag("server")
    void theServerDoesTheSame() throws Exception {
        try (JentryServer server = new JentryServer(Javac.PROGRAM)) {
            for (Map.Entry<String, byte[]> one : OLD.entrySet()) {
                if (isAccepted(one.getKey())) {
                    Checks.sameByServer(server, one.getValue(), Checks.compile(one.getValue()), 150);
                }
            }
        }
    }

    @Test
    void theOthersAreToldWhyNot() {
        assertTrue(Checks.refusal(OLD.get("Refused$Endless")).contains("line 11: no counter ends this loop"), Checks.refusal(OLD.get("Refused$Endless")));
        assertTrue(Checks.refusal(OLD.get("Refused$AsTold")).contains("line 24: this loop counts to, or from, a number that isn't known; limit the number"),
            Checks.refusal(OLD.get("Refused$AsTold")));
        assertTrue(Checks.refusal(OLD.get("Refused$Variable")).contains("line 34: the length of a new array isn't a constant"),
            Checks.refusal(OLD.get("Refused$Variable")));
    }
}
