package jentry.compiler;

import static org.junit.jupiter.api.Assertions.assertEquals;
import static org.junit.jupiter.api.Assertions.assertTrue;

import org.junit.jupiter.api.Test;
import org.junit.jupiter.params.ParameterizedTest;
import org.junit.jupiter.params.provider.CsvSource;

/** Tests that what can't be compiled is reported with its line and what to write instead, and that nothing is silently left out. */
class RefusalTest {
    private static String refusal(String type, String body, String members) {
        return Checks.refusal(Javac.compile("R", Javac.processor("R", type, body, members), "--release", "17"));
    }

    /** The first line of the body is line 4 of the source. */
    @ParameterizedTest
    @CsvSource(delimiter = '|', value = {
        "long x = 0; try { x = entry.getValue(); } catch (NullPointerException e) { x = 1; } return x; | R.process, line 4: catch (java.lang.NullPointerException)",
        "long x = 0; try { x = 1 / entry.getKey(); } catch (RuntimeException e) { x = 1; } return x; | R.process, line 4: catch (java.lang.RuntimeException)",
        "long x = 0; try { x = 1 / entry.getKey(); } finally { entry.remove(); } return x; | R.process, line 4: finally, or a synchronized block",
        "synchronized (this) { return entry.getKey(); } | R.process, line 4: finally, or a synchronized block",
        "try { return 1 / entry.getKey(); } catch (ArithmeticException e) { return e == null ? 1 : 2; } | R.process, line 4: the caught exception is used",
        "try { return 1 / entry.getKey(); } catch (ArithmeticException e) { throw e; } | R.process, line 4: the caught exception is used",
        "String s = \"a\" + args.length; return s.length(); | R.process, line 4: a text is joined",
        "return entry.getKey() * 1.5 > 3 ? 1 : 0; | R.process, line 4: double; reckon in long",
        "return new int[2][3][4].length; | R.process, line 4: a new array of arrays",
        "return new int[args.length][3].length; | R.process, line 4: a new array of arrays",
        "int[][] a = new int[2][3]; int[][] b = args.length > 0 ? a : new int[3][2]; return b.length; | R.process, line 4: it isn't known at compile time which",
        "int[][] a = new int[2][3]; return Objects.hashCode(a[1]); | R.process, line 4: an array of arrays, or a row of one,",
        "return System.nanoTime(); | R.process, line 4: a call of java.lang.System.nanoTime, which the server doesn't know",
        "return entry.equals(args); | R.process, line 4: equals of an object that may be no number",
        "Object o = args.length > 2 ? (Object) entry : entry.getKey(); return o.equals(1L); | R.process, line 4: equals of an object that may be no number",
        "Object o = args.length > 2 ? this : entry.getKey(); return Objects.equals(o, 1L); | R.process, line 4: equals of an object that may be no number",
        "Runnable r = () -> { }; r.run(); return 1; | R.process, line 4: a lambda",
        "return entry.getKey() == (Long) args[0] ? 1 : 0; | R.process, line 4: references are compared",
        "Object[] copy = new Object[2]; copy[0] = 1; return copy[0]; | R.process, line 4: a new array of java.lang.Object",
        "throw new IllegalMonitorStateException(); | R.process, line 4: throw new java.lang.IllegalMonitorStateException; throw a new IllegalArgumentException",
        "return Arrays.stream(args).sorted().count(); | R.process, line 4: ",
        "java.util.stream.LongStream s = java.util.stream.LongStream.range(0, 3); if (args.length > 0) { s = s.map(x -> x); } return s.sum(); "
            + "| R.process, line 4: it isn't known at compile time which object this is",
        "return Optional.ofNullable(entry.getValue()).orElse(0L); | R.process, line 4: a call of java.util.Optional.ofNullable, which the server doesn't know; test",
        "int n = args.length - 3; return new long[n].length; | R.process, line 4: the length of a new array",
        "return new long[args.length + 1].length; | R.process, line 4: the length of a new array"})
    void byMethodAndLine(String body, String told) {
        String refusal = refusal("Object", body, "");
        assertTrue(refusal.startsWith(told), refusal);
        assertTrue(refusal.contains("; "), "what to write instead: " + refusal);
    }

    @ParameterizedTest
    @CsvSource(delimiter = '|', value = {
        "static int count; | count++; return count; | R.process, line 4: the static field count is",
        "static final int[] SEEN = new int[4]; | SEEN[0]++; return SEEN[0]; | R.process, line 4: an element of the array SEEN is written",
        "static final int[] SEEN = new int[4]; static int[] seen() { return SEEN; } | seen()[1] = 3; return SEEN[1]; | R.process, line 4: an element of the array SEEN",
        "static final int[] SEEN = new int[4]; static void set(int[] to) { to[0] = 1; } | set(SEEN); return SEEN[0]; | R.set, line 6: an element of the array SEEN",
        "static final int[] SEEN = new int[4]; public static void hit() { SEEN[0]++; } | return SEEN[0]; | R.hit, line 6: an element of the array SEEN is written",
        "static final int[] SEEN = {1}; static int[] kept = SEEN; void hit() { kept[0]++; } | return SEEN[0]; | R.hit, line 6: an element of the array kept is",
        "static final int[] SEEN = new int[4]; | Arrays.fill(SEEN, 1); return SEEN[0]; | R.process, line 4: an element of the array SEEN may be written by",
        "long hits = 0; | hits++; return hits; | R.process, line 4: the field hits",
        "static final int[] SEEN = {1}; final int[] own = SEEN; void hit() { SEEN[0]++; } | return own[0]; | R.<init>, line 6: ",
        "static { System.out.println(); } | return 1; | R.<clinit>, line 6: this static initialiser can't be run at compile time",
        "R() { System.gc(); } | return 1; | R.<init>, line 6: this constructor",
        "static long f(long n) { return n < 2 ? 1 : n * f(n - 1); } | return f(entry.getKey()); | R.f, line 6: recursion by a call of f",
        "static native long now(); | return now(); | R.now: the method has no code",
        "enum Kind { A, B } | return Kind.A.ordinal(); | R.process, line 4: "})
    void membersToo(String members, String body, String told) {
        String refusal = refusal("Object", body, members);
        assertTrue(refusal.startsWith(told), refusal);
    }

    @Test
    void arraysAsResults() {
        String ofClass = Checks.refusal(Javac.compile("R", Javac.processor("R", "long[]", "return new long[] {1, args.length};", ""), "--release", "17"));
        assertTrue(ofClass.startsWith("R.process, line 4: a result of type long[]; return a Long"), ofClass);
        String host = "import javax.cache.processor.*;\npublic class H {\nstatic EntryProcessor<Long, Long, long[]> made() {\n"
            + "return (entry, args) -> new long[args.length];\n}\n}\n";
        String ofLambda = Checks.refusal(Javac.compile("H", host, "--release", "8"));
        assertTrue(ofLambda.startsWith("H.made, line 4: a result of type long[]"), ofLambda);
    }

    @Test
    void aTableThatTheHostOfALambdaWrites() {
        String host = "import javax.cache.processor.*;\npublic class H {\nstatic final long[] SEEN = {1, 2};\nstatic void hit() {\nSEEN[0]++;\n}\n"
            + "static EntryProcessor<Long, Long, Long> made() {\nreturn (entry, args) -> SEEN[0];\n}\n}\n";
        String refusal = Checks.refusal(Javac.compile("H", host, "--release", "17"));
        assertTrue(refusal.startsWith("H.hit, line 5: an element of the array SEEN is written"), refusal);
    }

    @ParameterizedTest
    @CsvSource(delimiter = '|', value = {
        "static final long MINE = LIMIT + 1; | return MINE; | R.<clinit>, line 3: this static initialiser can't be run at compile time: the field LIMIT",
        "static final long OWN = 1; | return LIMIT; | R.process, line 5: the static field LIMIT is inherited; declare it in the class itself"})
    void whatIsInheritedIsntKnown(String members, String body, String told) {
        String source = "import javax.cache.processor.*;\npublic class R implements EntryProcessor<Long, Long, Object>, Limits {\n" + members
            + "\npublic Object process(MutableEntry<Long, Long> entry, Object... args) {\n" + body + "\n}\n}\ninterface Limits { long LIMIT = System.nanoTime(); }\n";
        String refusal = Checks.refusal(Javac.compile("R", source, "--release", "17"));
        assertTrue(refusal.startsWith(told), refusal);
    }

    @Test
    void resultsThatJavaHasAndTheServerHasnt() {
        String refusal = refusal("String", "return null;", "");
        assertTrue(refusal.contains("a result of type java.lang.String; return a Long, an Integer, a Boolean or null"), refusal);
    }

    @Test
    void everyProblemIsTold() {
        String refusal = refusal("Object", "double d = 1;\nString s = \"x\";\nreturn System.nanoTime();", "");
        assertEquals(3, refusal.lines().count(), refusal);
        assertTrue(refusal.contains("line 4: ") && refusal.contains("line 5: ") && refusal.contains("line 6: "), refusal);
    }

    @Test
    void noClassFile() {
        assertTrue(Checks.refusal(new byte[] {1, 2, 3}).contains("this is no class file"));
        byte[] whole = Javac.compile("R", Javac.processor("R", "Object", "return 1;", ""), "--release", "8");
        for (int length = 0; length < whole.length; length++) {
            byte[] cut = java.util.Arrays.copyOf(whole, length);
            assertTrue(Checks.refusal(cut).contains("this is no class file"), "cut to " + length);
        }
    }
}
