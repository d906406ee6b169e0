package jentry.compiler;

import static org.junit.jupiter.api.Assertions.assertTrue;

import org.junit.jupiter.api.Tag;
import org.junit.jupiter.api.Test;
import org.junit.jupiter.params.ParameterizedTest;
import org.junit.jupiter.params.provider.CsvSource;
import org.junit.jupiter.params.provider.ValueSource;

/** Tests methods that call themselves last. */
class TailCallsTest {
    private static final String GCD = "static long f(long a, long b) { return b == 0 ? a : f(b, a % b); }";

    private static byte[] source(String method) {
        String body = "long value = entry.exists() ? entry.getValue() : 12;\nreturn f(entry.getKey(), value);";
        return Javac.compile("P", Javac.processor("P", "Object", body, method), "--release", "8");
    }

    @ParameterizedTest
    @ValueSource(strings = {
        GCD,
        "private long f(long a, long b) { if (b != 0) { return f(b, a % b); } return a; }",
        "static long f(long a, long b) { return g(0, a, b); } private static long g(int i, long a, long b) { if (i >= 9) { return a; } return g(i + 1, b, a * 3 + i); }",
        "static Long f(long x, long s) { if (x == 0) { return s; } long bit = x & -x; return f(x - bit, s * 3 + bit); }",
        "static long f(long x, long s) { if (x == 0) { return s; } switch ((int) (x & 3)) { case 0: return f(x >>> 1, s); "
            + "case 1: return f(x >>> 2, s + 1); default: return f(x >>> 3, s * 5); } }",
        "static Object f(long x, long s) { int n = (int) (x & 0xFF); return g((byte) n, (short) s, n > 7); } "
            + "static Object g(byte b, short s, boolean isOdd) { return b == 0 ? (Object) (int) s : g((byte) (b / 2), (short) (s * 3 + b), !isOdd); }",
        "static long f(long a, long b) { return a > b ? g(a, b) : g(b, a); } static long g(long a, long b) { return b == 0 ? a : g(b, a % b); }"})
    void theyBecomeLoops(String method) {
        byte[] original = source(method);
        CompiledClass compiled = Checks.compile(original);
        assertTrue(compiled.notes().stream().anyMatch(it -> it.startsWith("calls of a method by itself that became a loop: ")), compiled.notes().toString());
        Checks.same(original, compiled, 10_000);
    }

    @ParameterizedTest
    @CsvSource(delimiter = '|', value = {
        "static long f(long a, long b) { return a < 2 ? 1 : a * f(a - 1, b); } | P.f, line 7: recursion by a call of f",
        "static long f(long a, long b) { return b == 0 ? a : 0 + f(b, a % b); } | P.f, line 7: recursion by a call of f",
        "static long f(long a, long b) { try { return b == 0 ? a : f(b, a % b); } catch (ArithmeticException e) { return 3; } } | P.f, line 7: recursion by a call of f",
        "static long f(long a, long b) { return b == 0 ? a : g(b, a % b); } static long g(long a, long b) { return f(a, b); } | P.g, line 7: recursion by a call of f",
        "static long f(long a, long b) { return a == 1 ? b : f(a % 2 == 0 ? a / 2 : 3 * a + 1, b + 1); } | P.f, line 7: no counter ends this loop",
        "static long f(long a, long b) { return f(b, a); } | P.f, line 7: no counter ends this loop"})
    void theOthersAreRefused(String method, String told) {
        String refusal = Checks.refusal(source(method));
        assertTrue(refusal.startsWith(told), refusal);
    }

    @Test
    @Tag("server")
    void theServerDoesTheSame() throws Exception {
        try (JentryServer server = new JentryServer(Javac.PROGRAM)) {
            byte[] original = source(GCD);
            Checks.sameByServer(server, original, Checks.compile(original), 200);
        }
    }
}
