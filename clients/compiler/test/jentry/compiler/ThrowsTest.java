package jentry.compiler;

import static org.junit.jupiter.api.Assertions.assertArrayEquals;
import static org.junit.jupiter.api.Assertions.assertEquals;
import static org.junit.jupiter.api.Assertions.assertFalse;
import static org.junit.jupiter.api.Assertions.assertTrue;

import java.io.ByteArrayInputStream;
import java.io.InputStream;
import java.lang.reflect.InvocationTargetException;
import java.lang.reflect.Method;
import java.lang.reflect.Proxy;
import java.util.ArrayList;
import java.util.List;
import java.util.Map;
import jentry.compiler.compare.Call;
import jentry.compiler.compare.Comparison;
import org.junit.jupiter.api.Tag;
import org.junit.jupiter.api.Test;
import org.junit.jupiter.params.ParameterizedTest;
import org.junit.jupiter.params.provider.CsvSource;
import org.junit.jupiter.params.provider.ValueSource;

/** Tests exceptions that a processor throws itself: they stay what they are, and a text that is joined at run time keeps its constant parts. */
class ThrowsTest {
    private static final int CALLS = 1_500;
    private static final List<String> RELEASES = List.of("8", "17");
    private static final List<String> ACCEPTED = List.of("ArithmeticException", "EntryProcessorException", "IllegalArgumentException", "IllegalStateException",
        "UnsupportedOperationException");

    /** Defines classes from memory. */
    private static final class Loader extends ClassLoader {
        private final Map<String, byte[]> classes;

        Loader(Map<String, byte[]> classes) {
            super(Checks.PATH.loader());
            this.classes = classes;
        }

        @Override
        protected Class<?> findClass(String name) throws ClassNotFoundException {
            byte[] bytes = classes.get(name);
            if (bytes == null) {
                throw new ClassNotFoundException(name);
            }
            return defineClass(name, bytes, 0, bytes.length);
        }

        @Override
        public InputStream getResourceAsStream(String file) {
            byte[] bytes = classes.get(file.replace(".class", "").replace('/', '.'));
            return bytes == null ? super.getResourceAsStream(file) : new ByteArrayInputStream(bytes);
        }
    }

    private static byte[] compiled(String release, String body, String members) {
        return Javac.compile("R", Javac.processor("R", "Long", body, members), "--release", release);
    }

    /** Returns what a call throws on HotSpot, or null. */
    private static Throwable thrown(byte[] classFile, Call call) throws ReflectiveOperationException {
        Class<?> type = Class.forName("R", true, new Loader(Map.of("R", classFile)));
        Class<?> entries = Class.forName("javax.cache.processor.MutableEntry", true, type.getClassLoader());
        Object entry = Proxy.newProxyInstance(entries.getClassLoader(), new Class<?>[] {entries},
            (self, method, arguments) -> method.getName().equals("exists") ? call.value() != null : method.getName().equals("getKey") ? call.key() : call.value());
        Method process = type.getMethod("process", entries, Object[].class);
        try {
            process.invoke(type.getDeclaredConstructor().newInstance(), entry, call.arguments());
            return null;
        } catch (InvocationTargetException e) {
            return e.getCause();
        }
    }

    @Test
    void whatIsAcceptedStaysToTheByte() {
        for (String exception : ACCEPTED) {
            String body = "if (args.length > 3) { throw new " + exception + "(); }\nif (entry.exists()) { throw new " + exception + "(\"it is there\"); }\nreturn 1L;";
            byte[] original = compiled("8", body, "");
            CompiledClass same = Checks.compile(original);
            assertTrue(same.isUnchanged(), exception);
            assertArrayEquals(original, same.bytes());
        }
        byte[] booleans = Javac.compile("R", Javac.processor("R", "Boolean", "return entry.exists() ? Boolean.TRUE : Boolean.FALSE;", ""), "--release", "8");
        assertTrue(Checks.compile(booleans).isUnchanged(), "Boolean.TRUE and FALSE");
    }

    @ParameterizedTest
    @CsvSource(delimiter = '|', value = {
        "throw new IllegalStateException(\"key \" + entry.getKey()); | key ",
        "throw new IllegalStateException(entry.getKey() + \" of \" + args.length + \" is too much\"); |  of  is too much",
        "throw new EntryProcessorException(\"\" + args.length); | ''",
        "long n = entry.getKey(); throw new IllegalArgumentException(\"from \" + n + (n > 3 ? 1 : 2) + '!'); | from !",
        "throw new UnsupportedOperationException(\"a\" + 1 + 'b' + 2L + true); | a1b2true",
        "throw new ArithmeticException(String.valueOf(args.length)); | ''",
        "throw new ArithmeticException(\"n \" + String.valueOf(entry.getKey()) + Long.toString(5) + Integer.toHexString(args.length)); | n ",
        "throw new IllegalStateException(\"key \" + entry.getKey().toString() + \"!\"); | key !",
        "throw new IllegalStateException(\"has \" + (\"nested \" + args.length) + \" text\"); | has nested  text",
        "throw new IllegalStateException(new StringBuilder().append(\"a \").append(args.length).append('x').append(\" b\").append(5L).toString()); | a x b5",
        "throw new IllegalStateException(String.format(\"%d of %5d, %s (100%%) %08x %,d\", entry.getKey(), args.length, args.length, 5, 7L)); |  of ,  (100%)  ",
        "throw new IllegalStateException(String.format(\"%s of %d\", \"part\" + args.length, 5)); | part of ",
        "throw new IllegalStateException(String.format(\"nothing\")); | nothing",
        "for (int i = 0; i < 3; i++) { if (entry.getKey() != i) { throw new IllegalStateException(\"step \" + i + \" fails\"); } } return 1L; | step  fails",
        "long d = entry.exists() ? 1 : entry.getKey(); throw new IllegalStateException(\"quotient \" + 10 / d); | quotient ",
        "throw new IllegalStateException(\"none \" + entry.getValue() + args); | none "})
    void textsKeepTheirConstantParts(String body, String text) throws ReflectiveOperationException {
        String known = text == null ? "" : text;
        for (String release : RELEASES) {
            if (body.contains("+ args)")) {
                assertTrue(Checks.refusal(compiled(release, body, "")).contains("throw new java.lang.IllegalStateException; hand it nothing"), body);
                continue;
            }
            byte[] original = compiled(release, body, "");
            CompiledClass compiled = Checks.compile(original);
            Call call = new Call(77, null, 1L, 2L);
            Throwable before = thrown(original, call);
            Throwable after = thrown(compiled.bytes(), call);
            assertEquals(before.getClass().getName(), after.getClass().getName());
            assertEquals(known.strip(), after.getMessage().strip(), body + " of " + release);
            Checks.same(original, compiled, CALLS);
        }
    }

    @Test
    void spacesOfConstantPartsStay() throws ReflectiveOperationException {
        for (String release : RELEASES) {
            byte[] original = compiled(release, "throw new IllegalStateException(\" only \" + entry.getKey() + \"  left \");", "");
            assertEquals(" only   left ", thrown(Checks.compile(original).bytes(), new Call(1, 2L)).getMessage());
        }
    }

    /** What the text is joined of may throw, and then its exception is the one. */
    @ParameterizedTest
    @ValueSource(strings = {
        "throw new IllegalStateException(\"argument \" + (Long) args[0]);",
        "throw new IllegalStateException(\"argument \" + ((Long) args[0] + 1) + \" and \" + ((Integer) args[1] + 1));",
        "throw new IllegalStateException(\"argument \" + args[2]);",
        "throw new IllegalStateException(\"quotient \" + 10 / (entry.getKey() & 1));",
        "Long n = (Long) args[0]; throw new IllegalStateException(\"number \" + n.toString());",
        "throw new IllegalArgumentException(String.format(\"%d\", (Long) args[1]));",
        "throw new IllegalArgumentException(new StringBuilder().append(\"x\").append((long) (Long) args[1]).toString());"})
    void whatIsJoinedMayThrow(String body) {
        for (String release : RELEASES) {
            byte[] original = compiled(release, body, "");
            Checks.same(original, Checks.compile(original), CALLS);
        }
    }

    @Test
    void inLoopsAndHelpers() throws ReflectiveOperationException {
        String members = "private static long checked(long n, long limit) {\nif (n > limit) { throw new IllegalArgumentException(\"above \" + limit); }\nreturn n;\n}\n"
            + "private void fail(String why) { }\nprivate static long never() { throw new UnsupportedOperationException(); }\n";
        String body = "long sum = 0;\nfor (Object one : args) {\nif (one == null) { throw new IllegalArgumentException(\"argument is null\"); }\n"
            + "sum += checked(((Number) one).longValue(), 1L << 40);\n}\nfor (int i = 0; i < 70; i++) {\nif (sum == i) { throw new IllegalStateException(\"sum \" + i); }\n"
            + "sum = sum * 31 + i;\n}\nif (sum == 5) { return never(); }\nentry.setValue(sum);\nreturn sum;";
        for (String release : RELEASES) {
            byte[] original = compiled(release, body, members);
            CompiledClass compiled = Checks.compile(original);
            Checks.same(original, compiled, 4 * CALLS);
            assertEquals("argument is null", thrown(compiled.bytes(), new Call(1, 2L, 5L, null)).getMessage());
            assertEquals("sum ", thrown(compiled.bytes(), new Call(1, 2L, 0L)).getMessage());
            assertEquals("above ", thrown(compiled.bytes(), new Call(1, 2L, Long.MAX_VALUE)).getMessage());
        }
    }

    /** A handler of ArithmeticException catches what is thrown in its range, and in the methods that are called there. */
    @ParameterizedTest
    @ValueSource(strings = {
        "try { if (entry.getKey() > 0) { throw new ArithmeticException(\"positive\"); } return 1 / entry.getKey(); } catch (ArithmeticException e) { return 2L; }",
        "try { return checked(entry.getKey()); } catch (ArithmeticException e) { return 2L; }",
        "try { return 5 + checked(entry.getKey()) + (entry.exists() ? 1 : 2); } catch (ArithmeticException e) { entry.remove(); return 2L; }",
        "long sum = 0; for (int i = 0; i < 4; i++) { try { sum += checked(entry.getKey() + i); } catch (ArithmeticException e) { sum -= 1; } } return sum;",
        "try { if (entry.getKey() > 0) { throw new IllegalStateException(\"not caught\"); } return 1 / entry.getKey(); } catch (ArithmeticException e) { return 2L; }",
        "long n = 0; try { n = 1; } catch (ArithmeticException e) { n = 2; } if (n == 1) { throw new ArithmeticException(\"outside\"); } return n;"})
    void handlersOfArithmeticExceptions(String body) {
        String members = "private static long checked(long n) { if (n < 0) { throw new ArithmeticException(\"negative \" + n); } return n; }\n";
        for (String release : RELEASES) {
            byte[] original = compiled(release, body, members);
            Checks.same(original, Checks.compile(original), CALLS);
        }
    }

    @ParameterizedTest
    @CsvSource(delimiter = '|', value = {
        "throw new IndexOutOfBoundsException(\"x\"); | R.process, line 4: throw new java.lang.IndexOutOfBoundsException; throw a new IllegalArgumentException,",
        "throw new NumberFormatException(\"x\"); | R.process, line 4: throw new java.lang.NumberFormatException; throw a new IllegalArgumentException,",
        "throw new RuntimeException(\"x\"); | R.process, line 4: throw new java.lang.RuntimeException; throw a new IllegalArgumentException,",
        "throw new FullException(); | R.process, line 4: throw new R$FullException; throw a new IllegalArgumentException,",
        "throw new IllegalStateException(\"x\", null); | R.process, line 4: throw new java.lang.IllegalStateException; hand it nothing, or one text",
        "throw new IllegalStateException(new ArithmeticException()); | R.process, line 4: throw new java.lang.IllegalStateException; hand it nothing, or one",
        "throw new IllegalStateException(entry.exists() ? \"a\" : \"b\"); | R.process, line 4: throw new java.lang.IllegalStateException; hand it nothing, or one",
        "throw new IllegalStateException(text(entry.getKey())); | R.process, line 4: throw new java.lang.IllegalStateException; hand it nothing, or one text",
        "String s = \"a\" + args.length; throw new IllegalStateException(s); | R.process, line 4: ",
        "throw new IllegalStateException(String.format(\"%d\", args)); | R.process, line 4: throw new java.lang.IllegalStateException; hand it nothing, or one",
        "throw new IllegalStateException(String.format(\"%d\", entry.exists())); | R.process, line 4: throw new java.lang.IllegalStateException; hand it nothing,",
        "throw new IllegalStateException(String.format(\"%s %s\", 1)); | R.process, line 4: throw new java.lang.IllegalStateException; hand it nothing, or one text",
        "throw new IllegalStateException(\"entry \" + entry); | R.process, line 4: throw new java.lang.IllegalStateException; hand it nothing, or one text",
        "IllegalStateException e = new IllegalStateException(\"x\"); throw e; | R.process, line 4: ",
        "throw null; | R.process, line 4: throw; throw a new exception at once",
        "return Long.valueOf(new IllegalStateException().hashCode()); | R.process, line 4: new java.lang.IllegalStateException; use locals"})
    void whatIsRefused(String body, String told) {
        String members = "static String text(long n) { return \"n \" + n; }\nstatic class FullException extends IllegalStateException { }\n";
        for (String release : RELEASES) {
            String refusal = Checks.refusal(compiled(release, body, members));
            assertTrue(refusal.lines().anyMatch(it -> it.startsWith(told)), refusal);
        }
    }

    @Test
    void aClassWithTheNameOfAnExceptionMeansItself() {
        String source = "package javax.cache.processor;\npublic class EntryProcessorException extends RuntimeException implements EntryProcessor<Long, Long, Long> {\n"
            + "public Long process(MutableEntry<Long, Long> entry, Object... args) {\nthrow new EntryProcessorException();\n}\n}\n";
        String refusal = Checks.refusal(Javac.compile("javax.cache.processor.EntryProcessorException", source, "--release", "8"));
        assertFalse(refusal.isEmpty());
    }

    /** A compiled class with a text that its original hasn't is told by the comparison. */
    @Test
    void anotherTextIsTold() throws ReflectiveOperationException {
        byte[] original = compiled("8", "if (entry.exists()) { throw new IllegalStateException(\"it is full\"); } return 1L;", "");
        byte[] wrong = compiled("8", "if (entry.exists()) { throw new IllegalStateException(\"it was full\"); } return 1L;", "");
        CompiledClass same = Checks.compile(original);
        CompiledClass other = new CompiledClass("R", "R", wrong, false, same.bounds(), 1, List.of(), same.captures());
        String difference = Comparison.compare(Checks.PATH, original, other, 100, 1).difference().orElseThrow().toString();
        assertTrue(difference.contains("throws IllegalStateException with the text it is full") && difference.contains("it was full"), difference);
        assertTrue(Comparison.compare(Checks.PATH, original, same, 100, 1).difference().isEmpty());
    }

    @Test
    void enumsInTexts() throws ReflectiveOperationException {
        String members = "enum Kind { A, B }\nenum Told { X; public String toString() { throw new IllegalStateException(\"told\"); } }\n";
        String start = "Kind kind = entry.getKey() > 0 ? Kind.A : Kind.B; Told told = Told.X; ";
        for (String release : RELEASES) {
            for (String text : List.of("kind", "kind.name()", "kind.toString()")) {
                Map<String, byte[]> all = Javac.compile(Map.of("R", Javac.processor("R", "Long", start + "throw new IllegalStateException(\"in \" + " + text + ");",
                    members)), "--release", release);
                CompiledClass compiled = compiled(all);
                assertEquals("in ", thrown(compiled.bytes(), new Call(5, 2L)).getMessage());
            }
            Map<String, byte[]> all = Javac.compile(Map.of("R", Javac.processor("R", "Long", start + "throw new IllegalArgumentException(\"in \" + told);", members)),
                "--release", release);
            assertFalse(refusal(all).startsWith("compiled"), "a text with an effect of its own");
        }
    }

    private static ProcessorCompiler compiler(Map<String, byte[]> all) {
        return new ProcessorCompiler(false, ProgramClasses.of(new Loader(all), false));
    }

    private static CompiledClass compiled(Map<String, byte[]> all) {
        try {
            return compiler(all).compileClass(all.get("R"));
        } catch (CompileException e) {
            throw new AssertionError(e.getMessage(), e);
        }
    }

    private static String refusal(Map<String, byte[]> all) {
        try {
            return "compiled: " + compiler(all).compileClass(all.get("R")).name();
        } catch (CompileException e) {
            return e.getMessage();
        }
    }

    @Test
    @Tag("server")
    void theServerRunsThemLikeHotSpot() throws Exception {
        List<byte[]> classes = new ArrayList<>();
        for (String release : RELEASES) {
            for (String exception : ACCEPTED) {
                classes.add(compiled(release, "if (entry.getKey() > 0) { throw new " + exception + "(\"key \" + entry.getKey()); }\nif (entry.exists()) { throw new "
                    + exception + "(); }\nlong sum = 0; for (Object it : args) { if (it == null) { throw new " + exception + "(\"null\"); } sum++; } return sum;", ""));
            }
        }
        try (JentryServer server = new JentryServer(Javac.PROGRAM)) {
            for (byte[] original : classes) {
                Checks.sameByServer(server, original, Checks.compile(original), 300);
            }
        }
    }
}
