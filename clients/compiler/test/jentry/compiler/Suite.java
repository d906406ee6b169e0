package jentry.compiler;

import java.io.File;
import java.io.IOException;
import java.io.UncheckedIOException;
import java.lang.reflect.Constructor;
import java.nio.file.Files;
import java.nio.file.Path;
import java.util.ArrayList;
import java.util.HashMap;
import java.util.List;
import java.util.Map;
import java.util.TreeMap;
import jentry.compiler.compare.ClassPath;
import jentry.compiler.profile.Instructions;
import jentry.compiler.profile.Members;
import jentry.compiler.rewrite.Lambdas;
import org.objectweb.asm.ClassReader;
import org.objectweb.asm.Handle;
import org.objectweb.asm.Opcodes;
import org.objectweb.asm.tree.AbstractInsnNode;
import org.objectweb.asm.tree.ClassNode;
import org.objectweb.asm.tree.InvokeDynamicInsnNode;
import org.objectweb.asm.tree.MethodNode;

/** The processors of test/suite, which are ordinary Java: classes and lambdas, in the folder of the Java release that they are written in. */
final class Suite {
    private static final Path SOURCES = Javac.HERE.resolve("test/suite");
    private static final List<String> RELEASES = List.of("8", "11", "17");

    /** The compiled classes of all folders, and JCache. */
    private final ClassPath path;
    private final Map<String, ClassNode> nodes = new TreeMap<>();
    private final List<Processor> processors = new ArrayList<>();

    /**
     * A processor.
     *
     * @param name the class, and for a lambda also `#`, the method that makes it, and its number among the lambdas of that method
     * @param classFile the class file of the class or of the host of the lambda
     * @param body the body of a lambda, or null
     * @param program the classes that it may use
     */
    record Processor(String name, byte[] classFile, Handle body, ProgramClasses program) {
        /** Compiles it for all its objects. */
        CompiledClass compile() throws CompileException {
            if (body == null) {
                return new ProcessorCompiler(false, program).compileClass(classFile);
            }
            for (Lambdas.Lambda lambda : new ProcessorCompiler(false, program).lambdas(classFile)) {
                if (lambda.body().equals(body)) {
                    return new ProcessorCompiler(false, program).compileLambda(lambda);
                }
            }
            throw new CompileException(List.of(new jentry.compiler.profile.Problem(name, "", -1, "the lambda isn't found", "")));
        }
    }

    /** Returns an object of a class that holds an array or other processors, as a client has when it sends one, or null for other classes. */
    Object object(Processor processor) throws ReflectiveOperationException {
        Constructor<?>[] constructors = processor.body == null ? load(processor.name).getDeclaredConstructors() : new Constructor<?>[0];
        List<Class<?>> types = constructors.length != 1 ? List.of() : List.of(constructors[0].getParameterTypes());
        List<Object> values = new ArrayList<>();
        for (Class<?> type : types) {
            values.add(type == long[].class ? new long[] {1, 8, 1L << 40} : !type.getName().equals(Instructions.nameOf(Members.PROCESSOR)) ? null
                : values.isEmpty() ? made("Counters$AddAll") : made("GridStyle$Clamp", 10L, 1_000L));
        }
        return values.isEmpty() || values.contains(null) ? null : made(processor.name, values.toArray());
    }

    private Class<?> load(String name) throws ClassNotFoundException {
        return Class.forName(name, true, path.loader());
    }

    private Object made(String name, Object... values) throws ReflectiveOperationException {
        Constructor<?> constructor = load(name).getDeclaredConstructors()[0];
        constructor.setAccessible(true);
        return constructor.newInstance(values);
    }

    /**
     * Compiles the sources with javac.
     *
     * @param folder an empty folder for the class files
     */
    Suite(Path folder) {
        Map<String, byte[]> classes = new TreeMap<>();
        for (String release : RELEASES) {
            classes.putAll(Javac.compile(Javac.sources(SOURCES.resolve("java" + release)), "--release", release));
        }
        classes.forEach((name, bytes) -> write(folder.resolve(name.replace('.', '/') + ".class"), bytes));
        path = new ClassPath(Javac.api() + File.pathSeparator + folder);
        classes.forEach((name, bytes) -> nodes.put(name, read(bytes)));
        nodes.forEach((name, node) -> add(node, classes.get(name)));
    }

    ClassPath path() {
        return path;
    }

    private ProgramClasses program() {
        return ProgramClasses.of(path.loader(), false);
    }

    List<Processor> processors() {
        return processors;
    }

    private static void write(Path file, byte[] bytes) {
        try {
            Files.createDirectories(file.getParent());
            Files.write(file, bytes);
        } catch (IOException e) {
            throw new UncheckedIOException(e);
        }
    }

    private static ClassNode read(byte[] bytes) {
        ClassNode node = new ClassNode();
        new ClassReader(bytes).accept(node, 0);
        return node;
    }

    private boolean isProcessor(ClassNode node) {
        return node != null && (node.interfaces.contains(Members.PROCESSOR) || isProcessor(nodes.get(node.superName)));
    }

    private void add(ClassNode node, byte[] classFile) {
        if (isProcessor(node) && (node.access & (Opcodes.ACC_ABSTRACT | Opcodes.ACC_INTERFACE)) == 0) {
            processors.add(new Processor(node.name, classFile, null, program()));
        }
        Map<String, Integer> numbers = new HashMap<>();
        for (MethodNode method : node.methods) {
            for (AbstractInsnNode at : method.instructions) {
                boolean makes = at instanceof InvokeDynamicInsnNode it && it.name.equals("process") && !method.name.equals("$deserializeLambda$");
                if (makes) {
                    String name = node.name + "#" + method.name.replace("<clinit>", "static") + numbers.merge(method.name, 1, Integer::sum);
                    processors.add(new Processor(name, classFile, (Handle) ((InvokeDynamicInsnNode) at).bsmArgs[1], program()));
                }
            }
        }
    }
}
