package jentry.compiler;

import static org.junit.jupiter.api.Assertions.assertEquals;
import static org.junit.jupiter.api.Assertions.fail;

import java.util.ArrayList;
import java.util.List;
import java.util.Random;
import jentry.compiler.compare.Call;
import jentry.compiler.compare.ClassPath;
import jentry.compiler.compare.Comparison;
import jentry.compiler.compare.Outcome;
import jentry.compiler.compare.RandomCalls;
import jentry.compiler.compare.Runner;
import jentry.compiler.library.StepsMethods;

/** Checks that every compiled class must pass. */
final class Checks {
    static final ClassPath PATH = new ClassPath(Javac.api());

    private Checks() { }

    /** Compiles a class file with one processor. */
    static CompiledClass compile(byte[] classFile) {
        try {
            List<CompiledClass> compiled = new ProcessorCompiler().compile(classFile);
            assertEquals(1, compiled.size(), "classes of one class file");
            return compiled.get(0);
        } catch (CompileException e) {
            return fail(e.getMessage());
        }
    }

    /** Returns the message with which compilation is refused. */
    static String refusal(byte[] classFile) {
        try {
            return fail("compiled: " + new ProcessorCompiler().compile(classFile).get(0).name());
        } catch (CompileException e) {
            return e.getMessage();
        }
    }

    /** Checks that the same calls have the same outcomes on HotSpot before and after compilation. */
    static void same(byte[] original, CompiledClass compiled, int calls) {
        try {
            Comparison.compare(PATH, original, compiled, calls, 7).difference().ifPresent(it -> fail(compiled.name() + ": " + it));
        } catch (ReflectiveOperationException e) {
            fail(e);
        }
    }

    /** Checks that jentry accepts the compiled class with the compiler's bounds, and runs it like the original on HotSpot. */
    static void sameByServer(JentryServer server, byte[] original, CompiledClass compiled, int count) throws Exception {
        sameByServer(server, PATH, original, compiled, count);
    }

    static void sameByServer(JentryServer server, ClassPath path, byte[] original, CompiledClass compiled, int count) throws Exception {
        sameByServer(server, path, original, compiled, null, count);
    }

    /** Checks it by calls of one processor, or of one with random values where that is null. Calls that the comparison on HotSpot leaves out aren't made. */
    static void sameByServer(JentryServer server, ClassPath path, byte[] original, CompiledClass compiled, Object processor, int count) throws Exception {
        JentryServer.Defined defined = server.define(compiled.bytes());
        assertEquals(0, defined.refusal(), compiled.name() + ": the refusal");
        assertEquals(compiled.bounds().steps(), defined.steps(), compiled.name() + ": steps");
        assertEquals(compiled.bounds().words(), defined.words(), compiled.name() + ": words");
        RandomCalls random = new RandomCalls(original, compiled.source(), 11);
        List<Call> calls = new ArrayList<>();
        for (int i = 0; i < count; i++) {
            calls.add(random.next());
        }
        Runner runner = Runner.limited(path, original, compiled);
        if (processor != null) {
            runner.use(processor);
        }
        Object[] hidden = compiled.captures().arguments(processor != null ? processor : runner.renew(new Random(13)));
        calls.replaceAll(it -> it.within(8 - hidden.length));
        List<Outcome> outcomes = server.run(defined.number(), calls.stream().map(it -> it.behind(hidden)).toList());
        for (int i = 0; i < count; i++) {
            Outcome before = runner.run(calls.get(i));
            if (!runner.isLeftOut(before, outcomes.get(i), StepsMethods.ENDLESS)) {
                assertEquals(before, outcomes.get(i), compiled.name() + ", " + calls.get(i));
            }
        }
    }
}
