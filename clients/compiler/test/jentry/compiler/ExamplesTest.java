package jentry.compiler;

import static org.junit.jupiter.api.Assertions.assertArrayEquals;
import static org.junit.jupiter.api.Assertions.assertEquals;
import static org.junit.jupiter.api.Assertions.assertTrue;

import java.io.IOException;
import java.nio.file.Files;
import java.nio.file.Path;
import java.util.List;
import java.util.Map;
import java.util.TreeMap;
import java.util.stream.Stream;
import org.junit.jupiter.api.Tag;
import org.junit.jupiter.api.Test;

/** Tests the processors of the repository: accepted ones stay unchanged, and some refused ones become accepted. */
class ExamplesTest {
    private static final Path TOP = Javac.HERE.resolve("../..");
    private static final List<String> COMPILED = List.of("Assertion", "BoxedConstant", "ByteArray", "DeclaredComparable", "DoubleParameter",
        "EqualsOfBoolean", "ExtendsAnother", "FieldInitialiser", "Loop", "Main", "NewerVersion", "OneInstance", "StaticTable", "TextOfItself", "Throws",
        "TooLarge", "TryCatch", "UnknownCall", "VariableLength", "WithParameter");

    private static Map<String, byte[]> classesOf(String folder) throws IOException {
        Map<String, byte[]> classes = new TreeMap<>();
        try (Stream<Path> files = Files.list(TOP.resolve(folder))) {
            for (Path file : files.filter(it -> it.toString().endsWith(".class")).toList()) {
                classes.put(file.getFileName().toString().replace(".class", ""), Files.readAllBytes(file));
            }
        }
        return classes;
    }

    @Test
    void whatIsAcceptedStaysToTheByte() throws Exception {
        for (String folder : List.of("examples", "clients/processors")) {
            Map<String, byte[]> classes = classesOf(folder);
            assertTrue(classes.size() >= 7, folder);
            for (Map.Entry<String, byte[]> one : classes.entrySet()) {
                CompiledClass compiled = Checks.compile(one.getValue());
                assertTrue(compiled.isUnchanged(), one.getKey());
                assertArrayEquals(one.getValue(), compiled.bytes(), one.getKey());
            }
        }
    }

    @Test
    @Tag("server")
    void theBoundsAreThoseOfTheServer() throws Exception {
        try (JentryServer server = new JentryServer(Javac.PROGRAM)) {
            for (byte[] original : classesOf("examples").values()) {
                Checks.sameByServer(server, original, Checks.compile(original), 100);
            }
        }
    }

    @Test
    void someThatAreRefusedBecomeAccepted() throws Exception {
        Map<String, byte[]> compiled = new TreeMap<>();
        for (Map.Entry<String, byte[]> one : classesOf("examples/refused").entrySet()) {
            try {
                ProcessorCompiler.Result result = new ProcessorCompiler().compileAll(one.getValue());
                if (result.problems().isEmpty() && !result.classes().isEmpty() && !result.classes().get(0).isUnchanged()) {
                    compiled.put(one.getKey(), one.getValue());
                    Checks.same(one.getValue(), result.classes().get(0), 5_000);
                }
            } catch (CompileException e) {
                throw new AssertionError(one.getKey(), e);
            }
        }
        assertEquals(COMPILED, List.copyOf(compiled.keySet()));
    }

    @Test
    @Tag("server")
    void theServerAcceptsThemAndRefusesTheOthers() throws Exception {
        try (JentryServer server = new JentryServer(Javac.PROGRAM)) {
            for (Map.Entry<String, byte[]> one : classesOf("examples/refused").entrySet()) {
                if (COMPILED.contains(one.getKey())) {
                    Checks.sameByServer(server, one.getValue(), Checks.compile(one.getValue()), 100);
                } else {
                    assertTrue(server.define(one.getValue()).refusal() > 0, one.getKey());
                }
            }
        }
    }
}
