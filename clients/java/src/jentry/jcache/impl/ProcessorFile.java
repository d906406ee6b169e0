package jentry.jcache.impl;

import java.io.IOException;
import java.io.InputStream;
import java.lang.reflect.Constructor;
import java.lang.reflect.Modifier;
import java.lang.reflect.Proxy;
import java.security.MessageDigest;
import java.security.NoSuchAlgorithmException;
import java.util.Arrays;
import java.util.HexFormat;
import java.util.List;
import java.util.concurrent.CopyOnWriteArrayList;
import java.util.function.Function;
import java.util.function.Predicate;
import javax.cache.CacheException;
import javax.cache.processor.EntryProcessor;

/**
 * The class file of a processor. Two are equal if their bytes are. Only {@link #of(EntryProcessor, boolean)} looks for
 * the file of a processor object.
 */
public final class ProcessorFile {
    private static final String AS_A_CLASS =
        OptionalCompiler.ADVICE + ", or write it as a class of its own, compiled with javac --release 8";
    private static final ClassValue<ProcessorFile> FILES = new ClassValue<>() {
        @Override protected ProcessorFile computeValue(Class<?> type) {
            return new ProcessorFile(type.getName(), bytesOf(type));
        }
    };
    private static final ClassValue<Compiled> COMPILED = new ClassValue<>() {
        @Override protected Compiled computeValue(Class<?> type) {
            return new Compiled();
        }
    };

    /**
     * What is sent for the processors of a class that is to be compiled. Mostly that is one file. A processor whose
     * values are part of the compiled class needs a file of its own, unless another one holds the same.
     */
    private static final class Compiled {
        private static final int MOST_FILES = 16;

        private final List<ProcessorFile> files = new CopyOnWriteArrayList<>();
        private volatile String problem;
        private int failures;

        private ProcessorFile of(EntryProcessor<?, ?, ?> processor) {
            ProcessorFile found = find(processor);
            if (found != null) {
                return found;
            }
            String why = problem == null ? compile(processor) : problem;
            found = find(processor);
            return found != null ? found : uncompiled(processor.getClass(), why);
        }

        private ProcessorFile find(EntryProcessor<?, ?, ?> processor) {
            for (ProcessorFile file : files) {
                if (file.isFor.test(processor)) {
                    return file;
                }
            }
            return null;
        }

        /** Compiles the processor unless that was done before. Returns why it failed, or null. */
        private synchronized String compile(EntryProcessor<?, ?, ?> processor) {
            if (problem != null || find(processor) != null) {
                return problem;
            } else if (files.size() == MOST_FILES) {
                return "its values are part of the compiled class, and " + MOST_FILES
                    + " processors with other values were sent before; hand what changes over as arguments";
            }
            OptionalCompiler.Result result = OptionalCompiler.compile(processor);
            if (result.file() != null) {
                files.add(new ProcessorFile(processor.getClass().getName(), result.file()));
            } else if (!result.isOfCall() && (!holdsValues(processor.getClass()) || ++failures == MOST_FILES)) {
                problem = result.problem();
            }
            return result.problem();
        }

        private static boolean holdsValues(Class<?> type) {
            return type != Object.class && (Arrays.stream(type.getDeclaredFields())
                .anyMatch(it -> !Modifier.isStatic(it.getModifiers())) || holdsValues(type.getSuperclass()));
        }
    }

    private final String type;
    private final byte[] bytes;
    private final String problem;
    private final Function<Object, Object[]> hidden;
    private final Predicate<Object> isFor;
    private final String names;
    private final int hash;
    private volatile String id;
    private volatile ConstantPool pool;

    /**
     * Creates a file from its bytes.
     *
     * @param type the name of the class, for messages
     * @param bytes the class file
     */
    public ProcessorFile(String type, byte[] bytes) {
        this(type, bytes, null);
    }

    private ProcessorFile(String type, byte[] bytes, String problem) {
        this.type = type;
        this.bytes = bytes;
        this.problem = problem;
        hidden = null;
        isFor = it -> true;
        names = "";
        hash = Arrays.hashCode(bytes);
    }

    private ProcessorFile(String type, OptionalCompiler.File file) {
        this.type = type;
        bytes = file.bytes();
        problem = null;
        hidden = file.names().isEmpty() ? null : file.hidden();
        isFor = file.isFor();
        names = file.names();
        hash = Arrays.hashCode(bytes);
    }

    /**
     * Returns the class file to send for a processor: the compiler's output if the class is to be compiled and the
     * compiler is on the class path, else the file of its class as its class loader finds it. The result is cached for
     * each class.
     *
     * @param isToCompile whether to compile the class if possible
     * @throws CacheException if there is no file, or the class needs more than its own file
     */
    public static ProcessorFile of(EntryProcessor<?, ?, ?> processor, boolean isToCompile) {
        Class<?> type = processor.getClass();
        return isToCompile && OptionalCompiler.isThere() ? COMPILED.get(type).of(processor) : FILES.get(type);
    }

    /** Returns the file of a class that can't be compiled. */
    private static ProcessorFile uncompiled(Class<?> type, String problem) {
        if (isLambda(type)) {
            throw new CacheException(
                type.getName() + " is a lambda or a method reference, which can't be compiled: " + problem);
        }
        return new ProcessorFile(type.getName(), bytesOf(type), problem);
    }

    private static boolean isLambda(Class<?> type) {
        return type.isHidden() || type.isSynthetic();
    }

    /** Returns the arguments to send: the values that the processor holds in front of the author's arguments. */
    public Object[] sent(EntryProcessor<?, ?, ?> processor, Object[] arguments) {
        if (hidden == null) {
            return arguments;
        }
        Object[] first;
        try {
            first = hidden.apply(processor);
        } catch (IllegalArgumentException e) {
            throw new CacheException(e.getMessage(), e);
        }
        if (first.length + arguments.length > ProcessorInvoker.MOST_ARGUMENTS) {
            throw new IllegalArgumentException("an invocation takes at most " + ProcessorInvoker.MOST_ARGUMENTS
                + " arguments, and " + first.length + " of them are values that the processor holds (" + names
                + "): " + (ProcessorInvoker.MOST_ARGUMENTS - first.length) + " are left, not " + arguments.length);
        }
        Object[] all = Arrays.copyOf(first, first.length + arguments.length);
        System.arraycopy(arguments, 0, all, first.length, arguments.length);
        return all;
    }

    /** Returns the name of the class. */
    public String type() {
        return type;
    }

    /** Returns why the class couldn't be compiled, or null if it was compiled or wasn't meant to be. */
    public String problem() {
        return problem;
    }

    /** Returns the bytes of the file, which the caller must not change. */
    public byte[] bytes() {
        return bytes;
    }

    /** Returns the text of the String constant of an index in the constant pool, or null if there is none (index 0). */
    public String text(int index) {
        ConstantPool found = pool;
        if (found == null) {
            found = new ConstantPool(bytes);
            pool = found;
        }
        return found.string(index);
    }

    /** Returns the SHA-1 of the file in hexadecimal digits. */
    public String id() {
        if (id == null) {
            try {
                id = HexFormat.of().formatHex(MessageDigest.getInstance("SHA-1").digest(bytes));
            } catch (NoSuchAlgorithmException e) {
                throw new CacheException("this JVM has no SHA-1", e);
            }
        }
        return id;
    }

    @Override public int hashCode() {
        return hash;
    }

    @Override public boolean equals(Object other) {
        return other instanceof ProcessorFile && Arrays.equals(bytes, ((ProcessorFile) other).bytes);
    }

    /** Returns the bytes of a class's file. */
    public static byte[] bytesOf(Class<?> type) {
        String name = type.getName();
        String reason = withoutFile(type);
        if (reason != null) {
            throw new CacheException(name + " " + reason);
        }
        String file = name.substring(name.lastIndexOf('.') + 1) + ".class";
        try (InputStream in = type.getResourceAsStream(file)) {
            if (in == null) {
                throw new CacheException("the class file " + file + " of " + name
                    + " isn't found by its loader: was the class made at run time?");
            }
            return in.readAllBytes();
        } catch (IOException e) {
            throw new CacheException("the class file " + file + " of " + name + " can't be read", e);
        }
    }

    private static String withoutFile(Class<?> type) {
        if (isLambda(type)) {
            return "is a lambda or a method reference, which has no class file; " + AS_A_CLASS;
        }
        if (Proxy.isProxyClass(type)) {
            return "is a proxy, which has no class file; " + AS_A_CLASS;
        }
        if (type.isMemberClass() && !Modifier.isStatic(type.getModifiers())) {
            return "is an inner class, which holds its outer instance; make it static, or a class of its own";
        }
        if ((type.isLocalClass() || type.isAnonymousClass()) && takesParameters(type)) {
            return "is made with values from outside (an outer instance, locals of the method around it); "
                + "make it a static class, and hand the values over as arguments";
        }
        return null;
    }

    private static boolean takesParameters(Class<?> type) {
        return Arrays.stream(type.getDeclaredConstructors()).mapToInt(Constructor::getParameterCount)
            .anyMatch(it -> it > 0);
    }
}
