package jentry.compiler;

import static org.junit.jupiter.api.Assertions.assertEquals;
import static org.junit.jupiter.api.Assertions.assertFalse;
import static org.junit.jupiter.api.Assertions.assertTrue;

import java.io.File;
import java.net.URL;
import java.net.URLClassLoader;
import java.nio.file.Files;
import java.nio.file.Path;
import java.util.Map;
import org.junit.jupiter.api.BeforeAll;
import org.junit.jupiter.api.io.TempDir;
import org.junit.jupiter.params.ParameterizedTest;
import org.junit.jupiter.params.provider.CsvSource;

/** Plants a fault in the compiler's source with a single edit, and checks that the comparison finds it. */
class PlantedFaultsTest {
    private static Map<String, byte[]> classes;

    @TempDir
    private Path folder;

    @BeforeAll
    static void compileSources() {
        Map<String, String> sources = Javac.sources(Javac.HERE.resolve("processors"));
        sources.remove("Newer");
        sources.put("Safe", Javac.processor("Safe", "Object", """
            long sum = 0;
            for (int i = 0; i < 3; i++) {
                try { sum += entry.getKey() / (entry.getKey() - i); } catch (ArithmeticException e) { sum += 100; }
            }
            for (int i = 0; i < 8; i += 2) {
                sum = sum * 5 + i;
            }
            byte[] small = new byte[2];
            small[0] = (byte) sum;
            small[1] += 200;
            return sum * 7 + small[0] + small[1] + Long.numberOfLeadingZeros(sum);""", ""));
        addLoops(sources);
        addMoreLoops(sources);
        classes = Javac.compile(sources, "--release", "8");
    }

    private static void addLoops(Map<String, String> sources) {
        sources.put("Shrinks", Javac.processor("Shrinks", "Object", """
            long key = entry.getKey();
            long sum = 0;
            for (long x = key; x != 0; x &= x - 1) {
                sum = sum * 3 + x;
            }
            for (long x = key; x != 0; x >>>= 3) {
                sum = sum * 5 + x;
            }
            for (long x = key; x != 0; x /= 2) {
                sum = sum * 7 + x;
            }
            long a = key == 3 ? 4660046610375530309L : key;
            long b = key == 3 ? 7540113804746346429L : 97;
            while (b != 0) {
                long rest = a % b;
                a = b;
                b = rest;
                sum++;
            }
            long low = 0;
            long high = 1023;
            while (low <= high) {
                long middle = low + high >>> 1;
                if (middle < key) {
                    low = middle + 1;
                } else {
                    high = middle - 1;
                }
            }
            return sum * 11 + a + low;""", ""));
        sources.put("Steps", Javac.processor("Steps", "Object", """
            long key = entry.getKey();
            long sum = 0;
            for (long x = Math.max(-90_000, Math.min(key, 90_000)); x > -7; x -= 1_000) {
                sum = sum * 3 + x;
            }
            for (long x = Math.max(-80_000, Math.min(key, 10_000)); x < 7_700; x += 700) {
                sum = sum * 5 + x;
            }
            return sum;""", ""));
    }

    private static void addMoreLoops(Map<String, String> sources) {
        sources.put("Rings", Javac.processor("Rings", "Object", """
            long key = entry.getKey();
            long sum = 0;
            long x = key;
            long y = key / 2 + 1;
            while (y < x) {
                x = y;
                y = (x + key / x) / 2;
                sum++;
            }
            int at = (int) key;
            do {
                at = at + 1 & 63;
                sum = sum * 3 + at;
            } while ((1L << 50 >>> at & 1) == 0);
            return sum * 11 + x;""", ""));
        sources.put("Repeats", Javac.processor("Repeats", "Object", """
            long key = entry.getKey();
            long sum = 0;
            long by = args.length + 7;
            long left = key;
            while (left > 1_000) {
                left -= by;
                sum += 5;
            }
            sum = sum * 7 + left;
            int cents = (int) key;
            while (cents <= -30) {
                cents += 30;
                sum++;
            }
            return sum * 11 + cents;""", ""));
    }

    @ParameterizedTest
    @CsvSource(delimiter = '|', value = {
        "SumOfAll | unroll/UnrolledGraph.java | ConstantPropagation.MOST_ARGUMENTS, isProcess | 7, isProcess",
        "BitCount | unroll/DeadCode.java | IincInsnNode it ? it.var : | IincInsnNode it ? it.var + 1 :",
        "Safe | unroll/ConstantPropagation.java | AbstractValue.constant(number + by) | AbstractValue.constant(number + 1)",
        "Crc | unroll/ConstantPropagation.java | case 3 -> least ? 1 : less ? 0 : -1; | case 3 -> more ? 1 : most ? 0 : -1;",
        "Limits | rewrite/FieldConstants.java | LASTORE)); | LASTORE)); if (i == 2) { i++; }",
        "Limits | unroll/CodeWriter.java | opcode >= IFNULL ? opcode ^ 1 : ((opcode + 1) ^ 1) - 1 | opcode",
        "Safe | rewrite/ArithmeticHandlers.java | code.add(new JumpInsnNode(IFNE, divides)); | code.add(new JumpInsnNode(IFGE, divides));",
        "Safe | rewrite/SmallTypes.java | at.getOpcode() == BASTORE ? I2B | at.getOpcode() == BASTORE ? I2C",
        "Shrinks | unroll/Shrinkage.java | return width(x); | return width(x) - 1;",
        "Shrinks | unroll/Shrinkage.java | value.low() < 0 ? value.size() * 32 : | value.low() < 0 ? value.size() * 32 - 1 :",
        "Shrinks | unroll/Shrinkage.java | (bits + k - 1) / k | bits / k",
        "Shrinks | unroll/Shrinkage.java | Math.min(x.low(), -Math.max(x.high(), -Long.MAX_VALUE)) | -Math.max(x.high(), -Long.MAX_VALUE)",
        "Shrinks | unroll/Shrinkage.java | 92 - 2 + 1 | 92 - 2",
        "Shrinks | unroll/Shrinkage.java | (isInclusive ? 1 : 0) | 0",
        "Shrinks | unroll/Shrinkage.java | return isLong ? 92 - 2 + 1 | return isLong ? 12",
        "Steps | unroll/Shrinkage.java | (x.high() - limit + step - 1) / step | (x.high() - limit) / step",
        "Steps | unroll/SteppingPattern.java | isDown ? x : negative(x); | x;",
        "Rings | unroll/Shrinkage.java | (isLong ? 63 : 31) + 2 | (isLong ? 21 : 31) + 2",
        "Rings | unroll/Shrinkage.java | return values + 1; | return values - 40;",
        "Repeats | library/StepsMethods.java | return whole + 1; | return whole;",
        "Repeats | unroll/RepeatedSteps.java | isDown ? LADD : LSUB | isDown ? LSUB : LADD",
        "Repeats | unroll/Step.java | isAdded ? IADD : ISUB | IADD",
        "Shrinks | unroll/UnrolledGraph.java | value.isConstant() && value.low() == 0; | value.isConstant() && value.low() == 1;"})
    void theComparisonFindsIt(String processor, String file, String right, String wrong) throws Exception {
        Path source = Javac.HERE.resolve("src/jentry/compiler").resolve(file);
        String text = Files.readString(source);
        assertEquals(text.indexOf(right), text.lastIndexOf(right), "the edit has one place");
        assertTrue(text.contains(right), "the edit has a place");
        String name = "jentry.compiler." + file.replace('/', '.').replace(".java", "");
        Map<String, byte[]> edited = Javac.compile(System.getProperty("java.class.path"), Map.of(name, text.replace(right, wrong)), "--release", "17");
        for (Map.Entry<String, byte[]> one : edited.entrySet()) {
            Path target = folder.resolve(one.getKey().replace('.', '/') + ".class");
            Files.createDirectories(target.getParent());
            Files.write(target, one.getValue());
        }
        Path in = Files.write(folder.resolve(processor + ".class"), classes.get(processor));
        int status = run("-d", folder.resolve("out").toString(), "--compare=20000", in.toString());
        assertEquals(4, status, "the status of jentry-compile --compare");
        assertFalse(Files.exists(folder.resolve("out").resolve(processor + ".class")), "a class that does something else is written");
    }

    /** Runs the command with the edited classes, and the other classes unchanged. */
    private int run(String... words) throws Exception {
        String[] path = System.getProperty("java.class.path").split(File.pathSeparator);
        URL[] urls = new URL[path.length + 1];
        urls[0] = folder.toUri().toURL();
        for (int i = 0; i < path.length; i++) {
            urls[i + 1] = new File(path[i]).toURI().toURL();
        }
        try (URLClassLoader loader = new URLClassLoader(urls, ClassLoader.getPlatformClassLoader())) {
            java.io.PrintStream nowhere = new java.io.PrintStream(java.io.OutputStream.nullOutputStream());
            return (Integer) loader.loadClass("jentry.compiler.cli.Main").getMethod("run", java.io.PrintStream.class, java.io.PrintStream.class, String[].class)
                .invoke(null, nowhere, nowhere, words);
        }
    }
}
