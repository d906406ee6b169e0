package jentry.compiler;

import static org.junit.jupiter.api.Assertions.assertEquals;
import static org.junit.jupiter.api.Assertions.assertFalse;
import static org.junit.jupiter.api.Assertions.assertThrows;
import static org.junit.jupiter.api.Assertions.assertTrue;

import jentry.compiler.compare.Comparison;
import jentry.compiler.rewrite.Rewriter;
import org.junit.jupiter.api.Test;
import org.junit.jupiter.params.ParameterizedTest;
import org.junit.jupiter.params.provider.CsvSource;
import org.junit.jupiter.params.provider.ValueSource;

/** Tests which loops are bounded, by what, and which loop a refusal names. */
class LoopsTest {
    private static byte[] source(String body) {
        return Javac.compile("P", Javac.processor("P", "Object", "long s = 0;\n" + body + "\nreturn s;", ""), "--release", "17");
    }

    private static CompiledClass same(String body) {
        byte[] original = source(body);
        CompiledClass compiled = Checks.compile(original);
        assertFalse(compiled.isUnchanged(), "there is something to compile");
        Checks.same(original, compiled, 10_000);
        return compiled;
    }

    @ParameterizedTest
    @ValueSource(strings = {
        "int n = args.length; for (int i = 0; i < n; i++) { for (int j = 0; j < n; j++) { s = s * 3 + i - j; } }",
        "int n = args.length; for (int i = 0; i < n; i++) { for (int j = i + 1; j < n; j++) { s = s * 3 + (args[i].equals(args[j]) ? i : j); } }",
        "int n = args.length; for (int i = 0; i < n; i++) { s += i; } for (int i = 0; i < n; i++) { s = s * 5 + i; }",
        "int n = (int) (entry.getKey() & 7); int m = n + 1; for (int i = 0; i < m; i++) { for (int j = 0; j < n; j++) { for (int k = j; k < m; k++) { s = s * 3 + k; } } }",
        "int n = Math.min(args.length, 5); for (int i = 0; i < n; i++) { int before = n - i; for (int j = 0; j < before; j++) { s = s * 3 + before; } }"})
    void nestedLoopsToALocalBound(String body) {
        same(body);
    }

    @ParameterizedTest
    @ValueSource(strings = {
        "Long most = 12L; for (long i = 0; i < most; i++) { s = s * 3 + i; }",
        "Integer most = args.length > 3 ? 5 : 7; for (int i = 0; i < most; i++) { s = s * 3 + i; }",
        "for (int i = 0; i < MOST; i++) { s = s * 3 + i; } for (long i = MOST; i > FEW; i--) { s += i; }",
        "long[] all = table(args.length); for (int i = 0; i < all.length; i++) { s = s * 3 + all[i]; }",
        "for (int one : copy()) { s = s * 3 + one; } int[] own = copy(); for (int i = own.length; i-- > 0; ) { s = s * 5 + own[i]; }"})
    void boundsThatAreBoxedOrReturned(String body) {
        String members = "static final Long MOST = 9L; static final Integer FEW = 2; static final int[] OWN = {4, 5, 6};\nprivate static int[] copy() { return own(OWN); }\n"
            + "private static int[] own(int[] all) { return all; }\n"
            + "private static long[] table(int n) { if (n > 4) { return new long[] {n, 2}; } long[] t = new long[5]; t[n] = n; return t; }";
        byte[] original = Javac.compile("P", Javac.processor("P", "Object", "long s = 0;\n" + body + "\nreturn s;", members), "--release", "17");
        Checks.same(original, Checks.compile(original), 10_000);
    }

    @Test
    void theLoopThatHasNoEndIsNamed() {
        // the first of these loops is ended by a counter that only some passes write
        String refusal = Checks.refusal(source("int n = 0;\nwhile (n < 4) {\n if (s++ % 3 < 5) {\n  n++;\n } else {\n  n += 2;\n }\n}\nlong x = entry.getKey();\n"
            + "while (x != 1) {\n x = x % 2 == 0 ? x / 2 : 3 * x + 1;\n}"));
        assertTrue(refusal.startsWith("P.process, line 14: "), refusal);
    }

    /** The first word says what the note of the loop has. */
    @ParameterizedTest
    @CsvSource(delimiter = '|', value = {
        "removes a bit | long x = entry.getKey(); while (x != 0) { x &= x - 1; s++; }",
        "removes a bit | int x = (int) (long) entry.getKey(); while (x > 0) { x = (x - 1) & x; s = s * 3 + x; }",
        "removes a bit | for (long x = entry.getKey(); x != 0; x ^= x & -x) { s = s * 5 + x; }",
        "removes a bit | for (long x = entry.getKey(); x != 0; x -= x & -x) { s = s * 5 + x; }",
        "removes a bit | for (long x = entry.getKey(); x != 0; x &= ~Long.lowestOneBit(x)) { s = s * 5 + x; }",
        "removes a bit | for (long x = entry.getKey(); x != 0; x ^= Long.highestOneBit(x)) { s = s * 5 + x; }",
        "removes a bit | long x = entry.getKey(); while (x != 0) { int i = Long.numberOfTrailingZeros(x); s = s * 3 + i; x &= ~(1L << i); }",
        "removes a bit | int x = entry.getKey().intValue(); while (0 != x) { int i = Integer.numberOfTrailingZeros(x); s = s * 3 + i; x ^= 1 << i; }",
        "shifts a value by 1 | long x = entry.getKey(); while (x != 0) { s += x & 1; x >>>= 1; }",
        "shifts a value by 7 | long x = entry.getKey(); do { s = s * 3 + (x & 127); x >>>= 7; } while (x != 0);",
        "shifts a value by 1 | long b = 3, e = entry.getKey(), m = 1000007; s = 1; while (e > 0) { if ((e & 1) == 1) { s = s * b % m; } b = b * b % m; e >>= 1; }",
        "shifts a value by 3 | int x = entry.getKey().intValue(); while (x >= 4) { x >>= 3; s++; } s += x;",
        "shifts a value by 2 | int x = (int) (entry.getKey() & 0xFFFFF); while (x != 0) { x >>= 2; s = s * 3 + x; }",
        "shifts a value by 5 | long x = entry.getKey(); while (x != 0) { x = x << 5 & 0xFFFFFFFFFFFFL; s = s * 3 + x; }",
        "shifts a value by 1 | int x = entry.getKey().intValue(); while (x != 0) { if (x < 0) { x >>>= 4; } else { x >>>= 1; } s++; }",
        "shifts a value by 1 | long x = entry.getKey(); while ((x & 1) == 1) { x >>>= 1; s++; }",
        "shifts a value by 2 | int x = entry.getKey().intValue(), mask = args.length + 3; while ((mask & x) != 0) { x <<= 2; s = s * 3 + x; }",
        "removes a bit | long x = entry.getKey(); for (; (x & 0xFF00FFL) > 7; x &= x - 1) { s = s * 3 + x; }",
        "shortens the runs | long x = entry.getKey(); while (x != 0) { x &= x << 1; s++; }",
        "shortens the runs | int x = entry.getKey().intValue(); while (x != 0) { x = x >>> 3 & x; s++; }",
        "divides a value by 10 | long x = entry.getKey(); do { s = s * 10 + x % 10; x = x / 10; } while (x != 0);",
        "divides a value by -3 | long x = entry.getKey(); while (x != 0) { s = s * 5 + x; x /= -3; }",
        "divides a value by 2 | int x = entry.getKey().intValue(); while (x != 0 && x % 2 == 0) { x = x / 2; s++; }",
        "divides a value by 60 | long x = entry.getKey(); for (int i = 1; x >= 60; i *= 2) { s += x % 60 * i; x /= 60; }",
        "takes the remainder | long a = entry.getKey(), b = entry.exists() ? entry.getValue() : 7; while (b != 0) { long r = a % b; a = b; b = r; s++; } s = s * 7 + a;",
        "takes the remainder | int a = entry.getKey().intValue(), b = args.length * 97; while (b > 0) { int r = a - a / b * b; a = b; b = r; s = s * 3 + a; }",
        "halves the distance | long n = entry.getKey(), lo = 0, hi = 3037000499L; while (lo < hi) { long mid = lo + hi + 1 >>> 1; if (mid * mid <= n) { lo = mid; } else "
            + "{ hi = mid - 1; } } s = lo;",
        "halves the distance | long n = entry.getKey(), lo = 1, hi = 1L << 40; while (lo <= hi) { long mid = (lo + hi) / 2; if (mid < n) { lo = mid + 1; } else if (mid > n) "
            + "{ hi = mid - 1; } else { s = mid; break; } }",
        "halves the distance | int n = entry.getKey().intValue(), lo = -90000, hi = 90000; while (hi - lo > 1) { int mid = lo + (hi - lo) / 2; if (mid <= n) { lo = mid; } else "
            + "{ hi = mid; } } s = lo * 2 + hi;",
        "halves the distance | int n = entry.getKey().intValue(), lo = 0, hi = entry.exists() ? 1 << 20 : 9; while (lo < hi) { "
            + "int mid = (lo + hi) >> 1; if (mid < n) { lo = mid + 1; } else { hi = mid; } s++; } s = s * 3 + lo;",
        "computes a square root | long n = entry.getKey(), x = n, y = n / 2 + 1; while (y < x) { x = y; y = (x + n / x) / 2; } s = x;",
        "computes a square root | int n = entry.getKey().intValue(), x = 1 << 20; for (;;) { int y = n / x + x >> 1; if (y >= x) { break; } x = y; s++; } s = s * 99 + x;",
        "computes one of few | int x = entry.getKey().intValue(); long w = args.length; do { x = (x + 1) % 64; s++; } while ((w >>> x & 1) == 0); s = s * 99 + x;",
        "computes one of few | int x = 0, y = entry.getKey().intValue(); while ((x ^ y & 16) != 5) { x = x + 3 & 31; s = s * 31 + x; } s += x;",
        "computes one of few | int n = args.length, x = entry.getKey().intValue(); while ((x * 5 & 12) < n) { x = x + 3 & 15; s = s * 3 + x; }",
        "moves a value | int x = (int) (entry.getKey() & 0xFFFF); while (x > 0) { x -= 60; s++; }",
        "moves a value | long x = Math.min(20000, entry.getKey()); while (x >= 100) { x -= 100; s += x; }",
        "moves a value | int x = (int) (entry.getKey() % 9000); while (x < 0) { x += 17; s = s * 3 + x; } s += x;",
        "moves a value | long by = 500 + args.length, x = -(entry.getKey() & 0x1FFFF); while (x <= -300) { x += by; s++; } s = s * 7 + x;"})
    void loopsThatShrinkAValue(String what, String body) {
        CompiledClass compiled = same(body);
        assertTrue(compiled.notes().stream().anyMatch(it -> it.contains("since it " + what)), what + ": " + compiled.notes());
    }

    @ParameterizedTest
    @ValueSource(strings = {
        "long x = entry.getKey(); while (x != 0) { x >>= 1; }",
        "long x = entry.getKey(); while (x != 0) { x &= x - 2; }",
        "long x = entry.getKey(); while ((x & 3) > 0) { x >>= 1; }",
        "long x = entry.getKey(); while ((x & 1) == 0) { x >>>= 1; }",
        "long x = entry.getKey(); while ((x | 1) != 0) { x >>>= 1; }",
        "int[] t = {3, 1, 4, 1}; for (int i = 0; i < entry.getKey(); i++) { s = s * 3 + t[i & 3]; }",
        "int[] t = {3, 1, 4, 1}; for (int i = 0; i < entry.getKey(); i++) { if (args.length > 3) { s = s * 3 + t[i]; } }",
        "int[] t = {3, 1, 4, 1}; for (int i = 0, j = 0; i < entry.getKey(); i++) { s = s * 3 + t[j]; }",
        "long x = entry.getKey(); while (x != 1) { x >>>= 1; }",
        "long x = entry.getKey(); while (x > -2) { x /= 10; }",
        "long x = entry.getKey(); while (x != 0) { x /= args.length; }",
        "long x = entry.getKey(); while (x != 0) { if (args.length > 3) { x >>>= 1; } }",
        "long x = entry.getKey(); while (x != 0) { x >>>= 1; if (args.length > 3) { x += 5; } }",
        "long x = entry.getKey(); while (x != 0) { if (x % 3 == 0) { x >>>= 1; } else { x /= 3; } }",
        "long x = entry.getKey(), y = x; while (y != 0) { x >>>= 1; }",
        "long x = entry.getKey(), k = x; while (x > 0) { x -= k; if (args.length > 3) { s++; } }",
        "long x = entry.getKey(); while (x != 0) { x -= 5; }",
        "long x = entry.getKey(), k = 3; while (x > 0) { x -= k; k += 2; }",
        "long x = entry.getKey(); while (x > 0) { x -= 5; s = s * 3 + 1; }",
        "int x = entry.getKey().intValue(); long n = entry.getKey(); while (n >= x) { x += 7; }",
        "long x = entry.getKey(); while (x > s) { x -= 5; s--; }",
        "long lo = 0, hi = 1L << 40; while (lo < hi) { long mid = lo + hi >>> 1; if (mid < entry.getKey()) { lo = mid; } else { hi = mid; } }",
        "long lo = 0, hi = entry.getKey(); while (lo < hi) { long mid = (lo + hi) / 2; if (mid < 77) { lo = mid + 1; } else { hi = mid; } }",
        "long lo = -1L << 40, hi = 1L << 40; while (lo < hi) { long mid = lo + hi >>> 1; if (mid < entry.getKey()) { lo = mid + 1; } else { hi = mid; } }",
        "long a = entry.getKey(), b = 77; while (b != 0) { long r = a % b; a = r; b = a; }",
        "long a = entry.getKey(), b = 77; while (a != 0) { long r = a / b; a = b; b = r; }"})
    void loopsThatMayNotEnd(String body) {
        String refusal = Checks.refusal(source(body));
        assertTrue(refusal.matches("P.process, line 5: (no counter ends this loop|this loop (counts to, or from, a number|shifts a value|has too many passes)).*"), refusal);
    }

    @ParameterizedTest
    @ValueSource(strings = {
        "long x = entry.getKey(); while (x > 0) { x -= 5; s++; } s = s * 31 + x;",
        "long x = entry.getKey(), k = args.length; while (x >= k) { x -= k; s += 3; } s = s * 31 + x;",
        "long x = entry.getKey(), k = args.length + 1; int n = 7; while (k < x) { n -= 12345678; x -= k; s += 9; } s = s * 31 + x + n;",
        "int x = entry.getKey().intValue(), by = args.length + 5; while (x < 1000) { s -= 77; x += by; } s = s * 31 + x;",
        "int x = entry.getKey().intValue(), by = (args.length + 1) << 27, n = 2000000000; while (n >= x) { x = x + by; s++; } s = s * 31 + x;",
        "Long x = entry.getKey(), by = entry.getValue(); int n = 0; while (x <= 77) { x += by; n++; } s = x * 31 + n;",
        "Long x = entry.getValue(), most = entry.getKey(); Integer n = 5; while (x < most) { n += 3; x = 1000 + x; } s = x * 31 + n;",
        "int[] coins = {200, 50, 7, 1}; int x = entry.getKey().intValue(); for (int coin : coins) { while (x >= coin) { x -= coin; s++; } s *= 31; } s += x;",
        "for (long i = 0; i < entry.getKey(); i++) { break; } long n = entry.getKey(); for (long i = 0; i < n; i += 3) { s += 2; }"})
    void loopsThatAddTheSame(String body) throws ReflectiveOperationException {
        byte[] original = source(body);
        CompiledClass compiled = Checks.compile(original);
        assertTrue(compiled.notes().stream().anyMatch(it -> it.startsWith(Rewriter.COMPUTED)), compiled.notes().toString());
        Comparison.Report report = Comparison.compare(Checks.PATH, original, compiled, 10_000, 7);
        assertEquals("", report.difference().map(Object::toString).orElse(""));
        assertTrue(report.returned() > 3_000, report.toString());
        assertThrows(CompileException.class, () -> new ProcessorCompiler(true).compile(original), "where each instruction is kept, nothing is computed");
    }

    /** What a loop throws that is computed at once isn't caught: such a loop may be called where an ArithmeticException is. */
    @Test
    void noLoopIsComputedWhereExceptionsAreCaught() {
        String passes = "static long passes(long x, long k) {\n long n = 0;\n while (x >= k) {\n  x -= k;\n  n++;\n }\n return n;\n}";
        String body = "try { return passes(entry.getKey(), args.length); } catch (ArithmeticException e) { return -1L; }";
        String refusal = Checks.refusal(Javac.compile("P", Javac.processor("P", "Object", body, passes), "--release", "17"));
        assertTrue(refusal.contains("this loop counts to, or from, a number that isn't known"), refusal);
    }

    @Test
    void eachLoopOfAClassIsNamed() {
        String body = "long x = entry.getKey();\nwhile (x != 0) {\n x >>= 1;\n}\nfor (int i = 0; i < entry.getKey(); i++) {\n s++;\n}\n"
            + "for (int i = 0; i < 3; i++) {\n s++;\n}\nlong y = entry.getKey();\nwhile (y != 0) {\n y += (y ^ s);\n}\ns += more(y, s);";
        String more = "static long more(long n, long s) {\n while (n != s) {\n n = n * 3 + f((int) n); }\n return n; }\n"
            + "static long f(int n) { long s = 0; for (int i = 0; i < n; i++) { s++; } return s; }";
        String refusal = Checks.refusal(Javac.compile("P", Javac.processor("P", "Object", "long s = 0;\n" + body + "\nreturn s;", more), "--release", "8"));
        // what more hands over to f isn't known as long as its own loop has no end
        assertEquals("P.process, line 6: this loop shifts a value until it is 0, and a negative value never is; shift by >>>, or test for > 0\n"
            + "P.process, line 9: this loop counts to, or from, a number that isn't known; limit the number, as in Math.min(n, 64), or count to a constant too, "
            + "as in i < 64 && i < n\nP.process, line 16: no counter ends this loop; count the passes from a constant to a constant, as in "
            + "for (int i = 0; i < 20 && left > 0; i++)", refusal);
    }

    @Test
    void aShortRangeTakesFewPasses() {
        CompiledClass compiled = same("int x = (int) (entry.getKey() & 0xFFFF); while (x != 0) { x &= x - 1; s++; }");
        assertTrue(compiled.notes().stream().anyMatch(it -> it.contains("16 passes written out")), compiled.notes().toString());
    }
}
