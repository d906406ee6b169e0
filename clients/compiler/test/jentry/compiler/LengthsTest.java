package jentry.compiler;

import static org.junit.jupiter.api.Assertions.assertTrue;

import org.junit.jupiter.api.Tag;
import org.junit.jupiter.api.Test;
import org.junit.jupiter.params.ParameterizedTest;
import org.junit.jupiter.params.provider.ValueSource;

/** Tests arrays whose lengths are numbers of arguments, and loops that an array ends, since it has no more elements. */
class LengthsTest {
    private static final String MEMBERS = """
        private static final int[] TABLE = {31, 28, 31, 30};
        private static long[] numbers(Object[] all) {
            long[] made = new long[all.length];
            for (int i = 0; i < all.length; i++) {
                made[i] = all[i] instanceof Integer ? ((Integer) all[i]) * 5L : i * 7 % 5;
            }
            return made;
        }
        private static int most(long[] all) {
            int most = -1;
            for (int i = 0; i < all.length; i++) {
                most = all[i] > most ? (int) all[i] : most;
            }
            return most;
        }
        """;

    private static final String SORTED = "long[] a = numbers(args); Arrays.sort(a); s = a.length; for (long one : a) { s = s * 31 + one; }";

    private static byte[] source(String body, String release) {
        return Javac.compile("P", Javac.processor("P", "Object", "long s = 0;\n" + body + "\nreturn s;", MEMBERS), "--release", release);
    }

    private static void same(String body) {
        for (String release : new String[] {"8", "17"}) {
            byte[] original = source(body, release);
            CompiledClass compiled = Checks.compile(original);
            Checks.same(original, compiled, 10_000);
            assertTrue(!compiled.isUnchanged(), "there is something to compile");
        }
    }

    @ParameterizedTest
    @ValueSource(strings = {
        SORTED,
        "long[] a = new long[args.length]; a[(int) (entry.getKey() & 7)] = 5; s = a.length * 10 + a[2];",
        "int[] a = new int[args.length / 2]; for (int i = 0; i < a.length; i++) { a[i] = i + 3; } s = a.length * 100 + a[1];",
        "byte[] a = new byte[Math.min(args.length, 3)]; a[0] = (byte) (long) entry.getKey(); s = a[0] + a[a.length - 1];",
        "int n = (int) (entry.getKey() & 3) + 2; boolean[] a = new boolean[n]; a[3] = true; for (boolean one : a) { s = s * 2 + (one ? 1 : 0); }",
        "s = most(numbers(args)) * 10 + most(new long[args.length]);",
        "for (int i = 0; i < 3; i++) { long[] a = new long[args.length]; a[i] = i; for (long one : a) { s = s * 3 + one; } }",
        "long[] a = args.length > 4 ? new long[2] : new long[args.length]; for (int i = 0; i < a.length; i++) { s = s * 3 + a[i] + i; }"})
    void arraysOfAsManyAsArguments(String body) {
        same(body);
    }

    @ParameterizedTest
    @ValueSource(strings = {
        "int[] t = {3, 1, 4}; for (int i = 0; i < entry.getKey(); i++) { s = s * 3 + t[i]; }",
        "for (int m = 1; m < entry.getKey(); m++) { s = s * 3 + TABLE[m - 1]; if (m == 2) { s++; } }",
        "for (int i = 3; i >= entry.getKey(); i--) { s = s * 3 + TABLE[i]; }",
        "long[] d = new long[5]; int n = args.length > 0 && args[0] instanceof Integer ? (Integer) args[0] : 4; for (int i = 0; i < n; i += 2) { d[i] = i; s += d[i] * i; }",
        "for (int i = 0; i < entry.getKey(); i++) { s = s * 3 + (args[i] == null ? 1 : 2); }",
        "for (int i = 0; i != entry.getKey(); i++) { for (int j = 0; j <= i; j++) { s = s * 3 + TABLE[j]; } }",
        "int i = 0; while (true) { if (TABLE[i++] == entry.getKey()) { break; } s++; }",
        "for (int i = 0; i < entry.getKey(); i++) { if (i % 2 == 0) { s = s * 3 + TABLE[i]; } }"})
    void loopsThatAnArrayEnds(String body) {
        same(body);
    }

    @Test
    @Tag("server")
    void theServerDoesTheSame() throws Exception {
        try (JentryServer server = new JentryServer(Javac.PROGRAM)) {
            for (String body : new String[] {SORTED, "for (int i = 3; i >= entry.getKey(); i--) { s = s * 3 + TABLE[i]; }"}) {
                byte[] original = source(body, "8");
                Checks.sameByServer(server, original, Checks.compile(original), 200);
            }
        }
    }
}
