package jentry.compiler.runtime;

import java.io.IOException;
import java.io.InputStream;
import java.lang.invoke.SerializedLambda;
import java.lang.reflect.Modifier;
import java.util.List;
import java.util.Set;
import java.util.function.Function;
import java.util.function.Predicate;
import java.util.stream.Collectors;
import java.util.stream.Stream;
import org.objectweb.asm.Handle;
import org.objectweb.asm.Type;
import jentry.compiler.CompileException;
import jentry.compiler.CompiledClass;
import jentry.compiler.ProcessorCompiler;
import jentry.compiler.ProgramClasses;
import jentry.compiler.link.Captures;
import jentry.compiler.link.HeldValues;
import jentry.compiler.profile.Problem;
import jentry.compiler.rewrite.Lambdas;

/**
 * Compiles processors of the running program: an instance of a class, or a lambda.
 *
 * <p>A client of the server calls this by reflection, so the client also works without the compiler. That is why only classes of Java are returned.
 */
public final class LoadedProcessors {
    private static final String LAMBDA = "$$Lambda";

    private LoadedProcessors() { }

    /**
     * Compiles the class of a processor, or returns its unchanged class file if that is accepted.
     *
     * @param processor an EntryProcessor
     * @return the class file (byte[]); the arguments that have to be in front of the author's, by processor (Function to Object[]); whether the class
     *     file is that of another processor of the same class (Predicate); and the names of the values in front (String)
     * @throws CompileException if it can't be compiled or its class file can't be found; the message says what to write instead
     */
    public static Object[] prepare(Object processor) throws CompileException {
        CompiledClass compiled = compiled(processor);
        Captures captures = compiled.captures();
        Function<Object, Object[]> hidden = captures::arguments;
        Predicate<Object> isFor = captures::areOf;
        return new Object[] {compiled.bytes(), hidden, isFor, captures.names()};
    }

    private static CompiledClass compiled(Object processor) throws CompileException {
        Class<?> type = processor.getClass();
        if (type.getName().contains(LAMBDA)) {
            return compileLambda(processor);
        }
        return compiler(type).compileClass(classFile(type), processor);
    }

    private static ProcessorCompiler compiler(Class<?> type) {
        return new ProcessorCompiler(false, ProgramClasses.of(type.getClassLoader(), true));
    }

    private static CompileException problem(String name, String what, String remedy) {
        return new CompileException(List.of(new Problem(name, "", -1, what, remedy)));
    }

    static byte[] classFile(Class<?> type) throws CompileException {
        String file = type.getName().substring(type.getName().lastIndexOf('.') + 1) + ".class";
        try (InputStream in = type.getResourceAsStream(file)) {
            if (in != null) {
                return in.readAllBytes();
            }
        } catch (IOException e) {
            throw problem(type.getName(), "its class file can't be read: " + e.getMessage(), "");
        }
        throw problem(type.getName(), "its class file isn't found by its loader", "write it as a class that javac compiles");
    }

    private static CompiledClass compileLambda(Object processor) throws CompileException {
        Class<?> type = processor.getClass();
        String hostName = type.getName().substring(0, type.getName().indexOf(LAMBDA));
        Class<?> host;
        try {
            host = Class.forName(hostName, false, type.getClassLoader());
        } catch (ClassNotFoundException e) {
            throw problem(hostName, "the class of a lambda isn't found", "write the lambda as a class of its own");
        }
        return compiler(host).compileLambda(lambda(processor, host), processor);
    }

    /** Returns the types of what a lambda captures. */
    private static List<Type> captured(Object processor) {
        return Stream.of(processor.getClass().getDeclaredFields()).filter(it -> !Modifier.isStatic(it.getModifiers())).map(it -> Type.getType(it.getType()))
            .toList();
    }

    private static Lambdas.Lambda lambda(Object processor, Class<?> host) throws CompileException {
        byte[] bytes = classFile(host);
        Set<String> types = Stream.of(processor.getClass().getInterfaces()).map(Type::getInternalName).collect(Collectors.toSet());
        List<Lambdas.Lambda> candidates = compiler(host).lambdas(bytes).stream()
            .filter(it -> types.contains(it.type()) && List.of(Type.getArgumentTypes(it.site().desc)).equals(captured(processor))).toList();
        SerializedLambda declared = HeldValues.describe(processor);
        if (declared != null) {
            return only(host, candidates.stream()
                .filter(it -> it.isBody(declared.getImplClass(), declared.getImplMethodName(), declared.getImplMethodSignature())).toList());
        }
        if (candidates.size() > 1) {
            Set<Handle> handedOver = new CallerScan(host, bytes).bodies();
            List<Lambdas.Lambda> found = candidates.stream().filter(it -> handedOver.contains(it.body())).toList();
            return only(host, found.isEmpty() ? candidates : found);
        }
        return only(host, candidates);
    }

    private static Lambdas.Lambda only(Class<?> host, List<Lambdas.Lambda> candidates) throws CompileException {
        if (candidates.size() == 1) {
            return candidates.get(0);
        }
        String names = candidates.stream().map(it -> it.body().getName()).collect(Collectors.joining(", "));
        throw new UnknownLambdaException(new Problem(host.getName(), "", -1, "it can't be seen which of its lambdas this one is: " + names,
            "hand the lambda over where it is written, or cast it to (EntryProcessor<Long, Long, ..> & java.io.Serializable)"));
    }
}
