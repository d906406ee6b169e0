package jentry.jcache;

import static org.junit.jupiter.api.Assertions.assertEquals;
import static org.junit.jupiter.api.Assertions.assertFalse;
import static org.junit.jupiter.api.Assertions.assertThrows;
import static org.junit.jupiter.api.Assertions.assertTrue;

import java.lang.reflect.Proxy;
import java.net.URL;
import java.net.URLClassLoader;
import java.nio.file.Files;
import java.nio.file.Path;
import java.util.HashMap;
import java.util.List;
import java.util.Map;
import javax.cache.CacheException;
import javax.cache.processor.EntryProcessor;
import javax.cache.processor.MutableEntry;
import jentry.jcache.impl.ProcessorFile;
import org.junit.jupiter.api.Test;

/** Tests which class files of processors can be sent, and the messages for those that can't be sent or are refused, on the real server. */
class ClassFileTest extends OnServer {
    @Test void classesThatCanBeSent() {
        assertEquals(6L, cache.invoke(k, new TopLevel()));
        assertEquals(9L, cache.invoke(k, new Sample.Unused()));
        assertEquals(8L, cache.invoke(k, Sample.anonymous()));
        assertEquals(7L, cache.invoke(k, Sample.local()));
    }

    private static final String THE_JAR = "put jentry-compile.jar on the class path (clients/compiler/build in the repository of jentry makes it)";
    private static final String NEEDS_THE_COMPILER = "lambda or a method reference, which has no class file; " + THE_JAR
        + ", or write it as a class of its own, compiled with javac --release 8";

    /** A lambda, a class of a newer javac and a loop need the compiler, so each of their messages says how to get it. */
    @Test void whatTheCompilerCuresNamesItsJar() {
        EntryProcessor<Long, Long, Object> lambda = (entry, arguments) -> 1L;
        for (EntryProcessor<Long, Long, ?> it : List.<EntryProcessor<Long, Long, ?>>of(lambda, new Newer(), new Sample.Loops())) {
            String message = assertThrows(CacheException.class, () -> cache.invoke(k, it)).getMessage();
            assertTrue(message.contains(THE_JAR), message);
        }
        assertTrue(Files.isExecutable(Path.of(System.getProperty("jentry.test8"), "..", "..", "compiler", "build")), "the jar's maker");
    }

    private static Object answer(MutableEntry<Long, Long> entry, Object... arguments) {
        return 1L;
    }

    @Test void classesThatTheClientRefuses() {
        EntryProcessor<?, ?, ?> proxy = (EntryProcessor<?, ?, ?>) Proxy.newProxyInstance(getClass().getClassLoader(), new Class<?>[] {EntryProcessor.class}, (a, b, c) -> 1L);
        Map<EntryProcessor<Long, Long, Object>, String> refused = new HashMap<>();
        refused.put((entry, arguments) -> 1L, NEEDS_THE_COMPILER);
        refused.put(ClassFileTest::answer, NEEDS_THE_COMPILER);
        refused.put(Sample.inner(), "inner class, which holds its outer instance; make it static");
        refused.put(Sample.capturing(5), "is made with values from outside");
        long rounds = rounds();
        refused.forEach((processor, words) -> {
            String message = assertThrows(CacheException.class, () -> cache.invoke(k, processor)).getMessage();
            assertTrue(message.contains(words), message);
        });
        @SuppressWarnings("unchecked")
        EntryProcessor<Long, Long, Object> typed = (EntryProcessor<Long, Long, Object>) proxy;
        String message = assertThrows(CacheException.class, () -> cache.invoke(k, typed)).getMessage();
        assertTrue(message.contains("is a proxy"), message);
        assertEquals(rounds, rounds());
    }

    /** A loader that defines a class from bytes and has no resource for it. */
    private static final class Hiding extends ClassLoader {
        private Hiding(ClassLoader parent) {
            super(parent);
        }

        private Class<?> define(Class<?> type) {
            byte[] bytes = ProcessorFile.bytesOf(type);
            return defineClass(type.getName(), bytes, 0, bytes.length);
        }

        @Override public java.io.InputStream getResourceAsStream(String name) {
            return null;
        }
    }

    @Test void aClassWithoutAFile() throws ReflectiveOperationException {
        Object processor = new Hiding(getClass().getClassLoader()).define(TopLevel.class).getDeclaredConstructor().newInstance();
        @SuppressWarnings("unchecked")
        EntryProcessor<Long, Long, Object> typed = (EntryProcessor<Long, Long, Object>) processor;
        String message = assertThrows(CacheException.class, () -> cache.invoke(k, typed)).getMessage();
        assertTrue(message.contains("TopLevel.class") && message.contains("isn't found by its loader"), message);
    }

    @Test void classesThatTheServerRefuses() {
        Map<EntryProcessor<Long, Long, ?>, List<Object>> refused = new HashMap<>();
        refused.put(new Sample.Names(), List.of(7, "BadDescriptor", "a result of a type that isn't accepted: use int, long"));
        refused.put(new Sample.HasState(5), List.of(9, "ConstructorForm", "arguments for what changes"));
        refused.put(new Sample.UsesField(), List.of(17, "OutsideProfile", "opcode 180, in process line "));
        refused.put(new Sample.Prints(), List.of(17, "OutsideProfile", "opcode 178, in process line "));
        refused.put(new Sample.SwitchOfText(), List.of(17, "OutsideProfile", "opcode 18, in process line "));
        refused.put(new Sample.SwitchOfEnum(), List.of(17, "OutsideProfile", "opcode 178, in process line "));
        refused.put(new Sample.Loops(), List.of(20, "BackwardBranch", "in process line "));
        refused.put(new Sample.Catches(), List.of(15, "ExceptionTable", "in process. Exceptions can't be caught"));
        refused.put(new Sample.Calls(), List.of(24, "UnknownMember", "write it as a method of the class"));
        refused.put(new Newer(), List.of(4, "BadVersion", "Compile with --release 8, or 7. To have the client compile it, put jentry-compile.jar"));
        refused.forEach((processor, wanted) -> {
            ProcessorRefusedException e = assertThrows(ProcessorRefusedException.class, () -> cache.invoke(k, processor));
            assertEquals(wanted.get(0), e.number());
            assertEquals(wanted.get(1), e.refusal());
            assertTrue(e.getMessage().startsWith(processor.getClass().getName() + " is refused: " + wanted.get(0)), e.getMessage());
            assertTrue(e.getMessage().contains((String) wanted.get(2)), e.getMessage());
            assertFalse(e.remedy().isEmpty());
        });
        assertFalse(cache.containsKey(k));
    }

    @Test void aRefusalNamesTheSourceLine() throws java.io.IOException {
        ProcessorRefusedException e = assertThrows(ProcessorRefusedException.class, () -> cache.invoke(k, new Sample.Loops()));
        List<String> lines = Files.readAllLines(Path.of(System.getProperty("jentry.test8"), "jentry", "jcache", "Sample.java"));
        int line = 1 + lines.indexOf("            for (int i = 0; i < 8; i++) {");
        assertEquals(List.of("process line " + line), e.places());
        assertEquals(0, e.detail());
    }

    @Test void oneFileByTwoLoadersIsOneClassAndTwoFilesOfOneNameAreTwo() throws Exception {
        URL[] classes = {TopLevel.class.getProtectionDomain().getCodeSource().getLocation()};
        cache.invoke(k, new TopLevel());
        long rounds = rounds();
        try (URLClassLoader other = new URLClassLoader(classes, EntryProcessor.class.getClassLoader()) {
            @Override protected Class<?> loadClass(String name, boolean resolve) throws ClassNotFoundException {
                return name.equals(TopLevel.class.getName()) ? findLoadedClass(name) == null ? findClass(name) : findLoadedClass(name) : super.loadClass(name, resolve);
            }
        }) {
            @SuppressWarnings("unchecked")
            EntryProcessor<Long, Long, Object> same = (EntryProcessor<Long, Long, Object>) other.loadClass(TopLevel.class.getName()).getDeclaredConstructor().newInstance();
            assertFalse((Class<?>) same.getClass() == TopLevel.class);
            assertEquals(6L, cache.invoke(k, same));
        }
        assertEquals(rounds + 1, rounds(), "no second definition");
        try (URLClassLoader other = Renamed.loader()) {
            EntryProcessor<Long, Long, Object> changed = Renamed.processor(other);
            assertEquals(TopLevel.class.getName(), changed.getClass().getName());
            assertEquals(60L, cache.invoke(k, changed));
        }
        assertEquals(6L, cache.invoke(k, new TopLevel()));
    }

    /** A class of the newer class file version that this file is compiled for. */
    static class Newer implements EntryProcessor<Long, Long, Object> {
        @Override public Object process(MutableEntry<Long, Long> entry, Object... arguments) {
            return 1L;
        }
    }
}
