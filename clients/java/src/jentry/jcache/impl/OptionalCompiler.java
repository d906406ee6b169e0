package jentry.jcache.impl;

import java.lang.invoke.MethodHandle;
import java.lang.invoke.MethodHandles;
import java.lang.invoke.MethodType;
import java.util.function.Function;
import java.util.function.Predicate;
import javax.cache.processor.EntryProcessor;

/**
 * The processor compiler, if the jar of jentry-compile is on the class path. It is found by reflection, so the provider
 * needs neither that jar nor ASM.
 */
public final class OptionalCompiler {
    /** What a user does to have processors compiled. */
    public static final String ADVICE = "put jentry-compile.jar on the class path (clients/compiler/build in the "
        + "repository of jentry makes it)";

    private static final String NAME = "jentry.compiler.runtime.LoadedProcessors";
    private static final String UNKNOWN = "jentry.compiler.runtime.UnknownLambdaException";
    private static final MethodHandle COMPILE = find();

    /**
     * The outcome of a compilation.
     *
     * @param file the class file, or null
     * @param problem why there is none, or null
     * @param isOfCall whether the same processor may compile when it comes from another call site
     */
    record Result(File file, String problem, boolean isOfCall) { }

    /**
     * A compiled class file.
     *
     * @param bytes the class file
     * @param hidden the arguments that are sent in front of the author's, by processor
     * @param isFor whether the file is that of another processor of the same class
     * @param names the names of the values in front
     */
    record File(byte[] bytes, Function<Object, Object[]> hidden, Predicate<Object> isFor, String names) { }

    private OptionalCompiler() { }

    private static MethodHandle find() {
        ClassLoader own = OptionalCompiler.class.getClassLoader();
        for (ClassLoader loader : new ClassLoader[] {own, Thread.currentThread().getContextClassLoader()}) {
            try {
                return MethodHandles.publicLookup().findStatic(Class.forName(NAME, true, loader), "prepare",
                    MethodType.methodType(Object[].class, Object.class));
            } catch (ReflectiveOperationException | LinkageError e) {
                // This loader has no compiler that runs on this JVM.
            }
        }
        return null;
    }

    /** Returns whether the compiler was found. */
    static boolean isThere() {
        return COMPILE != null;
    }

    /**
     * Compiles a processor. This must run in the thread that called the cache, because the compiler identifies a lambda
     * by the stack of that thread.
     */
    @SuppressWarnings("unchecked")
    static Result compile(EntryProcessor<?, ?, ?> processor) {
        try {
            Object[] all = (Object[]) COMPILE.invokeExact((Object) processor);
            File file = new File((byte[]) all[0], (Function<Object, Object[]>) all[1], (Predicate<Object>) all[2],
                (String) all[3]);
            return new Result(file, null, false);
        } catch (VirtualMachineError e) {
            throw e;
        } catch (Throwable e) {
            String problem = e.getMessage() == null ? e.toString() : e.getMessage();
            return new Result(null, problem, e.getClass().getName().equals(UNKNOWN));
        }
    }
}
