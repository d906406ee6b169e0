package jentry.compiler;

import static org.junit.jupiter.api.Assertions.assertTrue;

import java.util.LinkedHashMap;
import java.util.Map;
import org.junit.jupiter.api.Tag;
import org.junit.jupiter.api.Test;

/** Compiles random programs, compares them on HotSpot, and runs them on the server. */
class FuzzTest {
    private static final int CLASSES = Integer.getInteger("jentry.fuzz", 200);
    private static final long SEED = Long.getLong("jentry.fuzz.seed", 1);
    private static final int BATCH = 100;
    private static final int CALLS = 200;
    private static final int CALLS_BY_SERVER = 8;

    private int compiled;
    private int refused;
    private int unchanged;
    private long runs;

    @Test
    void randomProgramsKeepTheirMeaning() throws Exception {
        run(null);
        assertTrue(unchanged < compiled / 2, unchanged + " of " + compiled + " have nothing to write out");
    }

    @Test
    @Tag("server")
    void theServerAgrees() throws Exception {
        try (JentryServer server = new JentryServer(Javac.PROGRAM)) {
            run(server);
        }
    }

    private void run(JentryServer server) throws Exception {
        for (long seed = SEED * 1_000_000; compiled < CLASSES; seed += BATCH) {
            Map<String, String> sources = new LinkedHashMap<>();
            for (int i = 0; i < BATCH; i++) {
                sources.put("F" + (seed + i), new ProgramGenerator(seed + i).program("F" + (seed + i)));
            }
            String release = seed / BATCH % 2 == 0 ? "8" : "17";
            for (Map.Entry<String, byte[]> one : Javac.compile(sources, "--release", release).entrySet()) {
                check(one.getKey(), sources.get(one.getKey()), one.getValue(), server);
            }
            report("  so far: ", server);
        }
        report("fuzz: ", server);
    }

    private void report(String how, JentryServer server) {
        System.out.println(how + (server == null ? "HotSpot" : "jentry") + ": " + compiled + " classes compiled (" + unchanged + " unchanged), " + refused
            + " refused, " + runs + " runs, 0 differences");
    }

    private void check(String name, String source, byte[] original, JentryServer server) throws Exception {
        CompiledClass result;
        boolean isVerbatim = name.hashCode() % 5 == 0;
        try {
            result = new ProcessorCompiler(isVerbatim).compile(original).get(0);
        } catch (CompileException e) {
            refused++;
            return;
        } catch (RuntimeException e) {
            throw new AssertionError(name + ":\n" + source, e);
        }
        compiled++;
        unchanged += result.isUnchanged() ? 1 : 0;
        try {
            if (isVerbatim) {
                assertTrue(result.bounds().steps() >= result.stepsWithLoops(), name + ": the verbatim class has fewer steps than the loops");
            }
            if (server == null) {
                Checks.same(original, result, CALLS);
                runs += CALLS;
            } else {
                Checks.sameByServer(server, original, result, CALLS_BY_SERVER);
                runs += CALLS_BY_SERVER;
            }
        } catch (AssertionError e) {
            throw new AssertionError(e.getMessage() + "\n" + source, e);
        }
    }
}
