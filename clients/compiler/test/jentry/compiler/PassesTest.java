package jentry.compiler;

import static org.junit.jupiter.api.Assertions.assertEquals;
import static org.junit.jupiter.api.Assertions.assertFalse;
import static org.junit.jupiter.api.Assertions.assertTrue;

import java.util.List;
import java.util.Random;
import org.junit.jupiter.api.Test;
import org.junit.jupiter.params.ParameterizedTest;
import org.junit.jupiter.params.provider.ValueSource;

/** Tests the passes one by one: library calls, fields, handlers, small types, newer class files. */
class PassesTest {
    private static CompiledClass same(String type, String body, String members, String release) {
        byte[] original = Javac.compile("P", Javac.processor("P", type, body, members), "--release", release);
        CompiledClass compiled = Checks.compile(original);
        assertFalse(compiled.isUnchanged(), "there is something to compile");
        Checks.same(original, compiled, 20_000);
        return compiled;
    }

    @ParameterizedTest
    @ValueSource(strings = {"Long.compare(x, y)", "Long.compareUnsigned(x, y)", "Long.divideUnsigned(x, y)", "Long.remainderUnsigned(x, y)", "Long.sum(x, y)",
        "Long.max(x, y)", "Long.min(x, y)", "Long.signum(x)", "Long.bitCount(x)", "Long.highestOneBit(x)", "Long.lowestOneBit(x)",
        "Long.numberOfLeadingZeros(x)", "Long.numberOfTrailingZeros(x)", "Long.rotateLeft(x, i)", "Long.rotateRight(x, i)", "Long.reverse(x)",
        "Long.reverseBytes(x)", "Long.hashCode(x)", "a.compareTo(b)", "a.equals(b) ? 1 : 0", "a.hashCode()", "a.equals(args[0]) ? 1 : 0",
        "a.byteValue() + 0", "a.shortValue() * 3", "(Integer.valueOf(i)).shortValue() + i", "((Number) args[0]).byteValue() + 0",
        "Integer.compare(i, k)", "Integer.compareUnsigned(i, k)", "Integer.divideUnsigned(i, k)", "Integer.remainderUnsigned(i, k)", "Integer.toUnsignedLong(i)",
        "Integer.sum(i, k)", "Integer.max(i, k)", "Integer.min(i, k)", "Integer.signum(i)", "Integer.bitCount(i)", "Integer.highestOneBit(i)",
        "Integer.lowestOneBit(i)", "Integer.numberOfLeadingZeros(i)", "Integer.numberOfTrailingZeros(i)", "Integer.rotateLeft(i, k)",
        "Integer.rotateRight(i, k)", "Integer.reverse(i)", "Integer.reverseBytes(i)", "Integer.hashCode(i)", "Math.abs(x)", "Math.abs(i)", "Math.floorDiv(x, y)",
        "Math.floorDiv(i, k)", "Math.floorDiv(x, k)", "Math.floorMod(x, y)", "Math.floorMod(i, k)", "Math.floorMod(x, k)", "Math.addExact(x, y)",
        "Math.addExact(i, k)", "Math.subtractExact(x, y)", "Math.subtractExact(i, k)", "Math.multiplyExact(x, y)", "Math.multiplyExact(i, k)",
        "Math.multiplyExact(x, k)", "Math.incrementExact(x)", "Math.decrementExact(i)", "Math.negateExact(x)", "Math.negateExact(i)", "Math.toIntExact(x)",
        "Math.absExact(x)", "Math.absExact(i)", "Math.multiplyHigh(x, y)", "Math.multiplyFull(i, k)", "StrictMath.floorMod(x, y)",
        "Objects.equals(args[0], args[1]) ? 1 : 0", "args[0].equals(args[1]) ? 1 : 0", "Objects.requireNonNull(a)", "Objects.isNull(args[0]) ? 1 : 0",
        "Integer.valueOf(i).equals(args[0]) ? 1 : 0", "Integer.valueOf(i).compareTo(k)", "Boolean.TRUE.equals(args[0])", "Boolean.FALSE.equals(args[0])",
        "((Boolean) args[0]).equals(args[1])", "((Boolean) args[0]).compareTo((Boolean) args[1])", "((Boolean) args[0]).hashCode()",
        "Boolean.compare(x < y, (Boolean) args[0])", "Boolean.hashCode(x < y)", "Boolean.logicalAnd(x < y, (Boolean) args[0])",
        "Boolean.logicalOr(x < y, (Boolean) args[0])", "Boolean.logicalXor(x < y, (Boolean) args[0])", "args[0] instanceof Boolean ? Boolean.TRUE : null",
        "Objects.equals((Boolean) args[0], args[1])", "((Object) (Boolean) args[0]).equals(args[1])"})
    void theLibraryAnswersAsTheJdk(String call) {
        same("Object", "Long a = entry.getKey(); Long b = entry.getValue(); long x = a; long y = b; int i = (int) x; int k = (int) y;\nreturn " + call + ";", "", "17");
    }

    @Test
    void exactOverflowsAtItsEdges() {
        Random random = new Random(3);
        long[] edges = {Long.MIN_VALUE, Long.MIN_VALUE + 1, -1, 0, 1, 2, Long.MAX_VALUE, Long.MAX_VALUE / 2 + 1, 3_037_000_500L, -3_037_000_500L};
        for (int i = 0; i < 200_000; i++) {
            long a = i % 3 == 0 ? random.nextLong() >> random.nextInt(64) : edges[random.nextInt(edges.length)];
            long b = i % 5 == 0 ? random.nextLong() >> random.nextInt(64) : edges[random.nextInt(edges.length)];
            assertEquals(exact(() -> Math.multiplyExact(a, b)), exact(() -> jentry.compiler.library.MathMethods.multiplyExact(a, b)), a + " * " + b);
            assertEquals(exact(() -> Math.addExact(a, b)), exact(() -> jentry.compiler.library.MathMethods.addExact(a, b)), a + " + " + b);
            assertEquals(exact(() -> Math.subtractExact(a, b)), exact(() -> jentry.compiler.library.MathMethods.subtractExact(a, b)), a + " - " + b);
        }
    }

    private static String exact(java.util.function.LongSupplier it) {
        try {
            return String.valueOf(it.getAsLong());
        } catch (ArithmeticException e) {
            return "overflow";
        }
    }

    @ParameterizedTest
    @ValueSource(strings = {
        "long r; try { r = 100 / entry.getKey() + 7 % (entry.getKey() - 1); } catch (ArithmeticException e) { r = -1; } return r;",
        "int i = (int) (long) entry.getKey(); try { return i * (5 / i) % (i - 3); } catch (ArithmeticException e) { return -i; }",
        "long s = 0; for (Object a : args) { try { s += 1000 / (Long) a; } catch (ArithmeticException e) { s -= 5; continue; } s++; } return s;",
        "long s = 1; try { try { s = 5 / entry.getKey(); } catch (ArithmeticException e) { s = 6 / entry.getValue(); } } catch (ArithmeticException f) { s = 9; } return s;",
        "try { return Math.floorMod(entry.getKey(), half(entry.getKey())); } catch (ArithmeticException e) { entry.setValue(3L); return 0; }",
        "try { entry.setValue(8L); return Math.multiplyExact(entry.getKey(), 1L << 40) + args.length; } catch (ArithmeticException e) { return null; }",
        "try { return entry.getKey() / 8; } catch (ArithmeticException e) { return null; }",
        "long x = 3; try { x = deep(entry.getKey(), args.length); } catch (ArithmeticException e) { x += 2; } return x;"})
    void caughtDivisions(String body) {
        same("Object", body, "private static long half(long x) { return x / 2; }\nprivate long deep(long x, int n) { long s = 0; for (int i = 0; i < 4; i++) { "
            + "if (i > n) { return s; } s += (x + i) / (x - i); } return s; }", "17");
    }

    @Test
    void fieldsBecomeConstants() {
        CompiledClass compiled = same("Object", "long s = LIMIT + limit + COUNT + EMPTY.length + (FLAG ? 1 : 0) + (NOTHING == null ? 5 : 6);\n"
            + "for (int i = 0; i < TABLE.length; i++) { s = s * 31 + TABLE[i] + SMALL[i % 3]; } return s + mine[1] + LETTERS[2];",
            "static final Long LIMIT = 77L; private final long limit = 5 + 6; static final Integer COUNT = Integer.valueOf(9); static final int[] EMPTY = {};\n"
            + "static final boolean FLAG = Math.max(1, 2) == 2; static final Long NOTHING = null; static final long[] TABLE = table(6); static final byte[] SMALL = {1, -2, 3};\n"
            + "private final int[] mine = {4, 5}; static final char[] LETTERS = {'a', 'b', 'c'};\n"
            + "private static long[] table(int n) { long[] t = new long[n]; for (int i = 0; i < n; i++) { t[i] = (long) i * i ^ 5; } return t; }", "17");
        assertTrue(compiled.notes().stream().anyMatch(it -> it.contains("LIMIT") && it.contains("TABLE")), compiled.notes().toString());
    }

    @Test
    void smallTypesStaySmall() {
        same("Object", "byte[] b = new byte[3]; short[] s = new short[3]; char[] c = new char[3]; boolean[] z = new boolean[3];\n"
            + "for (int i = 0; i < 3; i++) { b[i] += entry.getKey(); s[i] -= entry.getKey(); c[i] = (char) (entry.getKey() * i); z[i] = c[i] > b[i]; b[i]++; c[i]--; }\n"
            + "long sum = 0; for (byte x : b) { sum = sum * 7 + x; } for (short x : s) { sum += x; }\n"
            + "for (char x : c) { sum ^= x; } for (boolean x : z) { sum = sum * 2 + (x ? 1 : 0); }\n"
            + "return sum + f((byte) sum) + f((short) sum) + f((char) sum) + f((int) sum);",
            "static int f(byte b) { return b; }\nstatic int f(short s) { return s * 3; }\n"
                + "static char f(char c) { return (char) (c + 1); }\nstatic int f(int i) { return i * 5; }", "8");
    }

    @Test
    void classesOfNewerJavas() {
        for (String release : List.of("11", "17")) {
            CompiledClass compiled = same("Object", "long s = 0; for (var one : args) { s += half(one); } assert s != 4; return s;",
                "private long half(Object one) { return one instanceof Long ? (Long) one / 2 : 0; }\nstatic class Inner { }\n"
                + "public static void main(String[] words) { System.out.println(words.length); }\n@Override public String toString() { return \"P\"; }", release);
            assertEquals(52, compiled.bytes()[7], "the version of the class file");
        }
    }

    @ParameterizedTest
    @ValueSource(strings = {
        "long x = Long.MAX_VALUE - 5, y = x + args.length; for (int i = 0; i < 3; i++) { s = s * 3 + (y > 0 ? 1 : 2); }",
        "long x = Long.MIN_VALUE + 5, y = x - args.length; for (int i = 0; i < 3; i++) { s = s * 3 + (y < 0 ? 1 : 2); }",
        "long n = args.length - 3, y = n - Long.MIN_VALUE; for (int i = 0; i < 3; i++) { s = s * 3 + (y > 0 ? 1 : 2); }",
        "long n = args.length - 3, y = n + Long.MIN_VALUE; for (int i = 0; i < 3; i++) { s = s * 3 + (y > 0 ? 1 : 2); }",
        "int n = Integer.MAX_VALUE - 5 + args.length, m = Integer.MIN_VALUE + 5 - args.length;\n"
            + "for (int i = 0; i < 3; i++) { s = s * 5 + (n > 0 ? 1 : 2) + (m < 0 ? 3 : 4); }",
        "for (long i = Long.MAX_VALUE - 3; i > 0; i++) { s++; } for (long i = Long.MIN_VALUE + 2; i < 0; i--) { s += i; }",
        "for (int i = Integer.MAX_VALUE - 3; i > 0; i++) { s++; } for (byte b = 120; b > 0; b++) { s += b; } for (char c = 65530; c > 5; c++) { s += c; }",
        "long far = 1L << 40; for (long i = far; i < far + args.length; i++) { s = s * 3 + i; }"})
    void countersAtTheEndsOfTheirTypes(String body) {
        same("Object", "long s = 0;\n" + body + "\nreturn s;", "", "17");
    }

    @ParameterizedTest
    @ValueSource(strings = {
        "for (int i = 0; i < args.length / 2; i++) { s = s * 3 + (args[args.length - 1 - i].equals(args[i]) ? 1 : 2); }",
        "for (int i = 0; i < args.length * 3; i++) { s = s * 5 + (args[i / 3] == null ? i : -i); }",
        "for (int i = 0; i < args.length << 1; i++) { s += i; } for (int i = args.length >> 1; i >= 0; i--) { s = s * 3 + i; }",
        "for (int i = 0; i < (args.length + 1 >>> 1); i++) { s = s * 3 + i; } for (int i = -args.length; i < 0; i++) { s = s * 5 + i; }",
        "byte few = (byte) (long) entry.getKey(); while (few != 0) { s = s * 3 + few; few /= 2; }",
        "int few = (int) (entry.getKey() & 63); for (int i = 0; i < few / 4; i++) { s = s * 3 + i; } for (int i = few; i > 0; i >>= 1) { s += i; }",
        "for (int at = (args.length - 1) / 2; at >= 0; at--) { for (int child = 2 * at + 1; child < args.length; child = 2 * child + 1) { s = s * 7 + child; } }"})
    void loopsUpToWhatIsComputedOfLengths(String body) {
        same("Object", "long s = 0;\n" + body + "\nreturn s;", "", "17");
    }

    @Test
    void eachLambdaIsAClassOfItsOwn() throws CompileException {
        String host = "import javax.cache.Cache;\nimport javax.cache.processor.*;\npublic class H {\n"
            + "static Long f(MutableEntry<String, Long> e, Object... a) { return 1L; }\nstatic Long f(Cache.Entry<Long, Long> e, Object... a) { return 2L; }\n"
            + "static Long f_(MutableEntry<Long, Long> e, Object... a) { return 3L; }\nstatic Long g(MutableEntry<Long, Long> e, Object... a) { return 4L; }\n"
            + "static final EntryProcessor<String, Long, Long> ONE = H::f;\nstatic final EntryProcessor<Long, Long, Long> TWO = H::f;\n"
            + "static final EntryProcessor<Long, Long, Long> THREE = H::f_, FOUR = H::g;\nstatic class g { }\n}\n";
        byte[] classFile = Javac.compile("H", host, "--release", "8");
        List<CompiledClass> compiled = new ProcessorCompiler().compile(classFile);
        assertEquals(List.of("H$f", "H$f_", "H$f__", "H$g_"), compiled.stream().map(CompiledClass::name).sorted().toList());
        compiled.forEach(it -> Checks.same(classFile, it, 100));
    }

    @Test
    void aLambdaOfAClassThatStartsMore() throws CompileException {
        String host = "import java.util.*;\nimport javax.cache.processor.*;\npublic class H extends Base {\n"
            + "static final long OVER = limit + 1;\nstatic final long[] T = {5, 6, 7};\nstatic final List<Long> LIST = new ArrayList<>();\n"
            + "static final long START = System.nanoTime() / 1000 ^ 5;\nstatic final double HALF = START * 0.5 + 1.0;\nstatic final Random RANDOM = new Random((long) HALF);\n"
            + "static final long[] LATE = {LIST.size(), 1};\nstatic final long[] LAST = new long[4];\nstatic { for (int i = 0; i < 4; i++) { LAST[i] = T[i % 3] * i; } }\n"
            + "static final EntryProcessor<Long, Long, Long> ONE = (e, a) -> { long s = 0; for (long t : T) { s += t; } return s + LAST[3] + LAST.length; };\n"
            + "static final EntryProcessor<Long, Long, Long> TWO = (e, a) -> LATE[1];\nstatic final EntryProcessor<Long, Long, Long> THREE = (e, a) -> START;\n"
            + "static final EntryProcessor<Long, Long, Long> FOUR = (e, a) -> OVER;\n}\nclass Base { static long limit = 4; }\n";
        byte[] classFile = Javac.compile("H", host, "--release", "17");
        ProcessorCompiler.Result result = new ProcessorCompiler().compileAll(classFile);
        assertEquals(List.of("H$lambda$static$0"), result.classes().stream().map(CompiledClass::name).toList(), result.problems().toString());
        assertEquals(3, result.problems().size(), result.problems().toString());
    }

    @Test
    void aLambdaOfAnInterface() {
        String host = "import javax.cache.processor.*;\npublic interface H {\nEntryProcessor<Long, Long, Long> ONE = (e, a) -> twice(e.getKey()) + 1;\n"
            + "static long twice(long x) { long s = 0; for (int i = 0; i < 2; i++) { s += x; } return s; }\n}\n";
        for (String release : List.of("8", "17")) {
            byte[] classFile = Javac.compile("H", host, "--release", release);
            Checks.same(classFile, Checks.compile(classFile), 1_000);
        }
    }

    @Test
    void debugInformationDoesNoHarm() {
        byte[] original = Javac.compile("P", Javac.processor("P", "Long", "long s = 0;\nfor (int i = 0; i < 5; i++) {\n s += i * entry.getKey();\n}\nreturn s;", ""), "-g");
        Checks.same(original, Checks.compile(original), 2_000);
    }
}
