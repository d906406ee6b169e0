package jentry.compiler.compare;

import java.lang.invoke.MethodHandle;
import java.lang.invoke.MethodHandles;
import java.lang.invoke.MethodType;
import java.lang.reflect.InvocationHandler;
import java.lang.reflect.Method;
import java.lang.reflect.Proxy;
import java.time.DateTimeException;
import java.util.Random;
import jentry.compiler.CompiledClass;
import jentry.compiler.library.StepsMethods;
import jentry.compiler.unroll.LoopUnroller;

/** Runs a processor on this JVM. */
public final class Runner {
    private final Class<?> type;
    private final Method method;
    private final boolean isOfLambda;
    private final Entry entry = new Entry();
    private final Object proxy;
    private PassBudget budget;
    private MethodHandle process;
    private Object[] hidden = {};
    private String text;

    /**
     * Loads a class file.
     *
     * @param source the class name, and for a lambda also `#` and the name and descriptor of its body
     * @throws ReflectiveOperationException if the class can't be loaded
     */
    public Runner(ClassPath path, byte[] classFile, String source) throws ReflectiveOperationException {
        int hash = source.indexOf('#');
        String name = hash < 0 ? source : source.substring(0, hash);
        type = Class.forName(name, true, path.with(name, classFile));
        Class<?> entries = path.load("javax.cache.processor.MutableEntry");
        proxy = Proxy.newProxyInstance(entries.getClassLoader(), new Class<?>[] {entries}, entry);
        isOfLambda = hash >= 0;
        method = isOfLambda ? bodyOf(type, source.substring(hash + 1))
            : path.load("javax.cache.processor.EntryProcessor").getMethod("process", entries, Object[].class);
        method.setAccessible(true);
    }

    /**
     * Loads a class file whose runs are ended if they make too many passes of loops.
     *
     * @param compiled what it was compiled to, which says whether there are loops that may do so
     * @throws ReflectiveOperationException if the class can't be loaded
     */
    public static Runner limited(ClassPath path, byte[] classFile, CompiledClass compiled) throws ReflectiveOperationException {
        boolean isLimited = compiled.notes().stream().anyMatch(it -> it.contains(LoopUnroller.GOES_ON));
        Runner runner = new Runner(path, isLimited ? PassBudget.limited(classFile) : classFile, compiled.source());
        runner.budget = isLimited ? new PassBudget(runner.type) : null;
        return runner;
    }

    /**
     * Returns whether the last run isn't to be compared: it was ended, or it went on in a loop that is computed at once, where the compiled class throws.
     *
     * @param before its outcome
     * @param after the outcome of the compiled class
     * @param text the text of its exception
     */
    public boolean isLeftOut(Outcome before, Outcome after, String text) throws ReflectiveOperationException {
        boolean goesOn = "ArithmeticException".equals(after.thrown()) && StepsMethods.ENDLESS.equals(text) && !before.equals(after);
        return budget != null && (budget.isSpent() || goesOn);
    }

    private static Method bodyOf(Class<?> type, String body) throws ReflectiveOperationException {
        for (Method method : type.getDeclaredMethods()) {
            String descriptor = MethodType.methodType(method.getReturnType(), method.getParameterTypes()).toMethodDescriptorString();
            if (body.equals(method.getName() + descriptor)) {
                return method;
            }
        }
        throw new NoSuchMethodException(type.getName() + "." + body);
    }

    /**
     * Makes another processor, which may hold other values.
     *
     * @return the processor, or what a lambda captures
     * @throws ReflectiveOperationException if none can be made
     */
    public Object renew(Random random) throws ReflectiveOperationException {
        RandomInstances instances = new RandomInstances(random);
        MethodHandle found = MethodHandles.lookup().unreflect(method).asFixedArity();
        Object holder;
        if (isOfLambda) {
            Object[] captured = new Object[found.type().parameterCount() - 2];
            for (int i = 0; i < captured.length; i++) {
                captured[i] = instances.next(found.type().parameterType(i));
            }
            found = MethodHandles.insertArguments(found, 0, captured);
            holder = captured;
        } else {
            holder = instances.next(type);
            found = found.bindTo(holder);
        }
        process = found.asType(MethodType.methodType(Object.class, Object.class, Object[].class));
        return holder;
    }

    /**
     * Uses a given processor.
     *
     * @param processor an instance of the class; its loader is one of the class path
     * @throws ReflectiveOperationException if the class path has another EntryProcessor
     */
    public void use(Object processor) throws ReflectiveOperationException {
        process = MethodHandles.lookup().unreflect(method).asFixedArity().bindTo(processor)
            .asType(MethodType.methodType(Object.class, Object.class, Object[].class));
    }

    /** Sets the arguments that each call has in front of its own. */
    public void hide(Object... values) {
        hidden = values;
    }

    /** Runs a call. */
    public Outcome run(Call call) throws ReflectiveOperationException {
        if (process == null) {
            renew(new Random(1));
        }
        entry.key = call.key();
        entry.value = call.value();
        text = null;
        if (budget != null) {
            budget.renew();
        }
        try {
            Object result = (Object) process.invokeExact(proxy, call.behind(hidden).arguments());
            boolean isKnown = result == null || result instanceof Number || result instanceof Boolean;
            return new Outcome(null, isKnown ? result : result.getClass().getName(), entry.value);
        } catch (VirtualMachineError e) {
            throw e;
        } catch (Throwable e) {
            text = e.getMessage();
            // a processor at the server has no DateTimeException: what is compiled divides by zero in its place
            return new Outcome(e instanceof DateTimeException ? "ArithmeticException" : e.getClass().getSimpleName(), null, call.value());
        }
    }

    /** Returns the text of the exception with which the last call ended, or null. */
    String text() {
        return text;
    }

    /** The entry, reused for each call. */
    private static final class Entry implements InvocationHandler {
        private Long key;
        private Long value;

        @Override
        public Object invoke(Object self, Method method, Object[] arguments) {
            return switch (method.getName()) {
                case "getKey" -> key;
                case "getValue" -> value;
                case "exists" -> value != null;
                case "setValue" -> set(arguments[0]);
                case "remove" -> {
                    value = null;
                    yield null;
                }
                case "equals" -> self == arguments[0];
                case "hashCode" -> System.identityHashCode(self);
                case "toString" -> "an entry";
                default -> throw new IllegalArgumentException(method.getName());
            };
        }

        private Object set(Object now) {
            if (now == null) {
                throw new NullPointerException();
            }
            value = (Long) now;
            return null;
        }
    }
}
