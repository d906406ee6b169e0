package jentry.compiler;

import static org.junit.jupiter.api.Assertions.assertTrue;

import java.util.LinkedHashMap;
import java.util.Map;
import java.util.concurrent.TimeUnit;
import org.junit.jupiter.api.Test;
import org.junit.jupiter.api.Timeout;

/**
 * Compiles random programs with loops that shrink a value, many of which hold or capture values, and compares them on HotSpot. One that never ends there
 * has been accepted wrongly.
 */
class ShrinkingFuzzTest {
    private static final int CLASSES = Integer.getInteger("jentry.fuzz", 200);
    private static final long SEED = Long.getLong("jentry.fuzz.seed", 1);
    private static final int BATCH = 100;
    private static final int CALLS = 300;

    @Test
    @Timeout(value = 2, unit = TimeUnit.HOURS, threadMode = Timeout.ThreadMode.SEPARATE_THREAD)
    void shrinkingLoopsKeepTheirMeaning() {
        int compiled = 0;
        int limited = 0;
        int capturing = 0;
        int refused = 0;
        for (long seed = SEED * 1_000_000; compiled < CLASSES; seed += BATCH) {
            Map<String, String> sources = new LinkedHashMap<>();
            for (int i = 0; i < BATCH; i++) {
                sources.put("S" + (seed + i), new ShrinkingProgramGenerator(seed + i).program("S" + (seed + i)));
            }
            for (Map.Entry<String, byte[]> one : Javac.compile(sources, "--release", seed / BATCH % 2 == 0 ? "8" : "17").entrySet()) {
                try {
                    CompiledClass result = new ProcessorCompiler(one.getKey().hashCode() % 5 == 0).compile(one.getValue()).get(0);
                    compiled++;
                    limited += result.notes().stream().anyMatch(it -> it.contains("a run that would go on throws")) ? 1 : 0;
                    capturing += result.captures().hidden().isEmpty() ? 0 : 1;
                    Checks.same(one.getValue(), result, CALLS);
                } catch (CompileException e) {
                    refused++;
                } catch (AssertionError | RuntimeException e) {
                    throw new AssertionError(one.getKey() + ":\n" + sources.get(one.getKey()), e);
                }
            }
        }
        System.out.println("fuzz: shrinking loops: " + compiled + " classes compiled (" + limited + " by limits, " + capturing + " with captured values), "
            + refused + " refused, " + (long) compiled * CALLS + " runs, 0 differences");
        assertTrue(limited > compiled / 2, limited + " of " + compiled + " have a loop with a limit");
        assertTrue(capturing > compiled / 4, capturing + " of " + compiled + " capture values");
    }
}
