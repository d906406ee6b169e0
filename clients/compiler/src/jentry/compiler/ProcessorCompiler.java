package jentry.compiler;

import java.util.ArrayList;
import java.util.HashSet;
import java.util.List;
import java.util.Map;
import java.util.Set;
import org.objectweb.asm.ClassReader;
import org.objectweb.asm.ClassWriter;
import org.objectweb.asm.MethodTooLargeException;
import org.objectweb.asm.Opcodes;
import org.objectweb.asm.Type;
import org.objectweb.asm.tree.ClassNode;
import org.objectweb.asm.tree.MethodNode;
import jentry.compiler.link.Captures;
import jentry.compiler.link.Holder;
import jentry.compiler.link.Linker;
import jentry.compiler.link.Samples;
import jentry.compiler.profile.Bounds;
import jentry.compiler.profile.Instructions;
import jentry.compiler.profile.Members;
import jentry.compiler.profile.Problem;
import jentry.compiler.profile.ProblemException;
import jentry.compiler.profile.Profile;
import jentry.compiler.rewrite.Lambdas;
import jentry.compiler.rewrite.Rewriter;
import jentry.compiler.unroll.CodeWriter;
import jentry.compiler.unroll.LoopUnroller;

/**
 * Compiles class files of processors to class files that the server's verifier accepts. It unrolls loops, and replaces some other constructs that the
 * verifier refuses.
 *
 * <p>The verifier checks the output like any other class. A class in which the compiler finds nothing that the verifier refuses isn't changed.
 * Instances have no mutable state and can be used by several threads.
 */
public final class ProcessorCompiler {
    private static final int MOST_BYTES = 65_536;
    private static final int NEWEST_VERSION = 64;
    private static final int MOST_ARGUMENTS = 8;
    private static final String PARAMETERS = Members.PROCESS.substring(0, Members.PROCESS.indexOf(')') + 1);
    private static final Set<String> NUMBERS = Set.of("java/lang/Number", "java/lang/Long", "java/lang/Integer");

    private final boolean isVerbatim;
    private final ProgramClasses program;
    private final boolean computesSteps;

    /** Creates a compiler that removes instructions without effect, and knows no other classes. */
    public ProcessorCompiler() {
        this(false, ProgramClasses.NONE);
    }

    /**
     * Creates a compiler that knows no other classes.
     *
     * @param isVerbatim whether it keeps every instruction
     */
    public ProcessorCompiler(boolean isVerbatim) {
        this(isVerbatim, ProgramClasses.NONE);
    }

    /**
     * Creates a compiler that can keep every instruction.
     *
     * @param isVerbatim whether it keeps them; the bound then equals the number of instructions that the loops execute
     * @param program the classes that processors may use
     */
    public ProcessorCompiler(boolean isVerbatim, ProgramClasses program) {
        this(isVerbatim, program, false);
    }

    private ProcessorCompiler(boolean isVerbatim, ProgramClasses program, boolean computesSteps) {
        this.isVerbatim = isVerbatim;
        this.program = program;
        this.computesSteps = computesSteps;
    }

    /** One attempt to compile a processor. */
    private interface Attempt {
        CompiledClass by(ProcessorCompiler compiler) throws CompileException;
    }

    /** Compiles with all loops written out; where that fails, once more with those computed at once that add the same in each pass. */
    private CompiledClass orComputed(Attempt attempt) throws CompileException {
        try {
            return attempt.by(this);
        } catch (CompileException e) {
            if (isVerbatim) {
                throw e;
            }
            try {
                return attempt.by(new ProcessorCompiler(false, program, true));
            } catch (CompileException ignored) {
                throw e;
            }
        }
    }

    /** Returns whether the class of a class file is an EntryProcessor that can be instantiated, or has lambdas that are. */
    public boolean hasProcessors(byte[] classFile) throws CompileException {
        ClassNode node = read(classFile);
        return isProcessor(node) || !lambdas(node).isEmpty();
    }

    /** Returns whether a class is a processor, or would be one if it named the interface itself. */
    private boolean isProcessor(ClassNode node) {
        MethodNode process = Instructions.method(node, "process", Members.PROCESS);
        return (node.access & (Opcodes.ACC_INTERFACE | Opcodes.ACC_ABSTRACT)) == 0 && (process != null || Linker.isProcessor(node, program));
    }

    /**
     * The result of compiling the processors of a class file.
     *
     * @param classes the processors that were compiled
     * @param problems the problems of those that can't be compiled
     */
    public record Result(List<CompiledClass> classes, List<Problem> problems) {
        /** Returns the classes, at least one, or throws if there are problems or no classes. */
        public List<CompiledClass> orThrow(String name) throws CompileException {
            if (!problems.isEmpty()) {
                throw new CompileException(problems);
            } else if (classes.isEmpty()) {
                throw new CompileException(List.of(new Problem(name, "", -1, "there is no EntryProcessor in it",
                    "write a class that implements EntryProcessor, or a lambda")));
            }
            return classes;
        }
    }

    /**
     * Compiles the processors of a class file: the class itself if it implements EntryProcessor, and each of its lambdas that implements it.
     *
     * @throws CompileException if the bytes aren't a class file
     */
    public Result compileAll(byte[] classFile) throws CompileException {
        ClassNode node = read(classFile);
        List<CompiledClass> compiled = new ArrayList<>();
        List<Problem> problems = new ArrayList<>();
        if (isProcessor(node)) {
            try {
                compiled.add(compileClass(classFile));
            } catch (CompileException e) {
                problems.addAll(e.problems());
            }
        }
        Set<String> names = new HashSet<>();
        for (Lambdas.Lambda lambda : lambdas(classFile)) {
            try {
                if (names.add(lambda.className())) {
                    compiled.add(compileLambda(lambda));
                }
            } catch (CompileException e) {
                problems.addAll(e.problems());
            }
        }
        return new Result(compiled, problems);
    }

    /**
     * Compiles all processors of a class file.
     *
     * @return at least one class
     * @throws CompileException if one of them can't be compiled, or there is none
     */
    public List<CompiledClass> compile(byte[] classFile) throws CompileException {
        return compileAll(classFile).orThrow(Instructions.nameOf(read(classFile).name));
    }

    /**
     * Compiles only the class of a class file, without its lambdas.
     *
     * @throws CompileException if the class can't be compiled
     */
    public CompiledClass compileClass(byte[] classFile) throws CompileException {
        return compileClass(classFile, null);
    }

    /**
     * Compiles the class of an object.
     *
     * @param processor an instance of the class, or null if there is none
     * @throws CompileException if the class can't be compiled
     */
    public CompiledClass compileClass(byte[] classFile, Object processor) throws CompileException {
        return orComputed(it -> it.compiledClass(classFile, processor));
    }

    private CompiledClass compiledClass(byte[] classFile, Object processor) throws CompileException {
        ClassNode node = read(classFile);
        String name = Instructions.nameOf(node.name);
        if (classFile.length <= MOST_BYTES && Profile.problems(node, Profile.Stage.COMPLETE).isEmpty()) {
            Bounds bounds = Bounds.of(node);
            return new CompiledClass(name, name, classFile, true, bounds, bounds.steps(), List.of(), Captures.NONE);
        }
        for (MethodNode method : node.methods) {
            refuseArray(node, method, method.name.equals("process") && method.desc.startsWith(PARAMETERS) ? method.desc : "");
        }
        if (Linker.isNeeded(node, program)) {
            return linked(node, name, processor);
        }
        try {
            return written(node, name, null);
        } catch (CompileException e) {
            if (node.fields.isEmpty()) {
                throw e;
            }
            try {
                return linked(read(classFile), name, processor);
            } catch (CompileException ignored) {
                throw e;
            }
        }
    }

    /** Refuses a process that returns an array, which the server never gives to a caller. */
    private static void refuseArray(ClassNode owner, MethodNode method, String descriptor) throws CompileException {
        Type result = descriptor.isEmpty() ? Type.VOID_TYPE : Type.getReturnType(descriptor);
        if (result.getSort() == Type.ARRAY) {
            refuse(List.of(Instructions.problem(owner, method, "a result of type " + result.getClassName(), "return a Long, an Integer, a Boolean or null from process")));
        }
    }

    /** Links a class, with the values that an instance holds as hidden arguments; where these don't do, as constants. */
    private CompiledClass linked(ClassNode root, String source, Object processor, ClassNode... more) throws CompileException {
        Object sample = processor == null ? Samples.of(root, program) : null;
        if (processor == null) {
            return linked(root, source, sample == null ? Holder.NONE : new Holder(sample, Holder.Use.OF_EVERY_INSTANCE), more);
        }
        try {
            return linked(root, source, new Holder(processor, Holder.Use.ARGUMENTS), more);
        } catch (CompileException e) {
            return linked(root, source, new Holder(processor, Holder.Use.CONSTANTS), more);
        }
    }

    /** Links a class; where objects that it makes are in the way, once more with numbers in place of the small ones. */
    private CompiledClass linked(ClassNode root, String source, Holder holder, ClassNode... more) throws CompileException {
        try {
            return linked(root, source, holder, false, more);
        } catch (CompileException e) {
            try {
                return linked(root, source, holder, true, more);
            } catch (CompileException ignored) {
                throw e;
            }
        }
    }

    private CompiledClass linked(ClassNode root, String source, Holder holder, boolean packs, ClassNode... more) throws CompileException {
        try {
            Linker.Linked linked = Linker.link(root, program, holder, packs, more);
            int hidden = linked.captures().hidden().size();
            if (hidden > MOST_ARGUMENTS) {
                refuse(List.of(Instructions.problem(root, "it holds " + hidden + " values that change, and an invocation takes " + MOST_ARGUMENTS
                    + " arguments: " + linked.captures().names(), "hold fewer, or make those final that are constant")));
            }
            return written(linked, source, null);
        } catch (ProblemException e) {
            throw new CompileException(e.problems());
        } catch (IllegalArgumentException e) {
            throw new CompileException(List.of(Instructions.problem(root, e.getMessage(), "let the compiler read it, or hand the values over as arguments")));
        }
    }

    /** Returns the lambdas of a class file that implement EntryProcessor, or an interface of the program that extends it. */
    public List<Lambdas.Lambda> lambdas(byte[] classFile) throws CompileException {
        return lambdas(read(classFile));
    }

    private List<Lambdas.Lambda> lambdas(ClassNode host) {
        return Lambdas.of(host, type -> Linker.isProcessor(type, host, program));
    }

    /**
     * Compiles one lambda of a class file.
     *
     * @param lambda one of {@link #lambdas}
     * @throws CompileException if the lambda can't be compiled
     */
    public CompiledClass compileLambda(Lambdas.Lambda lambda) throws CompileException {
        return compileLambda(lambda, null);
    }

    /**
     * Compiles one lambda of a class file.
     *
     * @param lambda one of {@link #lambdas}
     * @param processor the object that was made of it, or null if there is none
     * @throws CompileException if the lambda can't be compiled
     */
    public CompiledClass compileLambda(Lambdas.Lambda lambda, Object processor) throws CompileException {
        return orComputed(it -> it.compiledLambda(lambda, processor));
    }

    private CompiledClass compiledLambda(Lambdas.Lambda lambda, Object processor) throws CompileException {
        refuseArray(lambda.host(), lambda.method(), lambda.body().getDesc());
        try {
            String source = Instructions.nameOf(lambda.host().name) + "#" + lambda.body().getName() + lambda.body().getDesc();
            if (Lambdas.isOwn(lambda)) {
                ClassNode made = Lambdas.toClass(lambda);
                if (!Linker.isNeeded(made, program)) {
                    return written(made, source, lambda.host());
                }
            }
            return linked(Lambdas.toHolder(lambda), source, processor, lambda.host());
        } catch (ProblemException e) {
            throw new CompileException(e.problems());
        }
    }

    private static ClassNode read(byte[] classFile) throws CompileException {
        try {
            byte[] bytes = classFile;
            if (bytes.length > 7 && (bytes[6] & 0xFF) == 0 && (bytes[7] & 0xFF) > NEWEST_VERSION) {
                // ASM refuses versions above this one, but javac's output for a processor hasn't changed since
                bytes = bytes.clone();
                bytes[7] = NEWEST_VERSION;
            }
            ClassNode node = new ClassNode();
            new ClassReader(bytes).accept(node, 0);
            return node;
        } catch (RuntimeException e) {
            throw new CompileException(List.of(new Problem("?", "", -1, "this is no class file, or it is damaged", "name a file that javac made")));
        }
    }

    private CompiledClass written(ClassNode node, String source, ClassNode host) throws CompileException {
        return written(new Linker.Linked(node, Captures.NONE, Map.of(), List.of()), source, host);
    }

    private CompiledClass written(Linker.Linked linked, String source, ClassNode host) throws CompileException {
        ClassNode node = linked.node();
        try {
            List<String> notes = new ArrayList<>(linked.notes());
            notes.addAll(Rewriter.rewrite(node, host, linked.constants(), computesSteps));
            refuse(Profile.problems(node, Profile.Stage.BEFORE_UNROLLING));
            LoopUnroller unroller = new LoopUnroller(node, linked.captures().hidden().size());
            long steps = unroller.steps();
            List<MethodNode> methods = List.copyOf(node.methods);
            List<String> unrolled = unroller.rewrite(isVerbatim ? CodeWriter.Form.VERBATIM : CodeWriter.Form.FOLDED);
            byte[] bytes = isVerbatim ? toBytes(node) : toBytesThatFit(node);
            if (bytes == null) {
                node.methods = new ArrayList<>(methods);
                unrolled = unroller.rewrite(CodeWriter.Form.SHORT);
                bytes = toBytes(node);
            }
            notes.addAll(unrolled);
            return checked(bytes, source, steps, notes, linked.captures());
        } catch (ProblemException e) {
            throw new CompileException(e.problems());
        } catch (RuntimeException e) {
            throw new CompileException(List.of(Instructions.problem(node, "the compiler can't follow this class: " + e, "write it in a simpler form")));
        }
    }

    private static byte[] toBytesThatFit(ClassNode node) {
        try {
            byte[] bytes = toBytes(node);
            return bytes.length <= MOST_BYTES ? bytes : null;
        } catch (CompileException e) {
            return null;
        }
    }

    private CompiledClass checked(byte[] bytes, String source, long steps, List<String> notes, Captures captures) throws CompileException {
        ClassNode node = read(bytes);
        if (bytes.length > MOST_BYTES) {
            refuse(List.of(Instructions.problem(node, "with its loops written out the class file has " + bytes.length + " bytes, and 65,536 are the most",
                "make fewer passes, or write an inner loop as a method of its own")));
        }
        refuse(Profile.problems(node, Profile.Stage.COMPLETE));
        Bounds bounds = Bounds.of(node);
        Bounds most = Bounds.LIMITS;
        if (bounds.steps() > most.steps() || bounds.words() > most.words() || bounds.slots() > most.slots() || bounds.depth() > most.depth()) {
            refuse(List.of(Instructions.problem(node, "an invocation may take " + bounds + ", and " + most + " are the limits",
                "make fewer passes and calls, and arrays outside of loops")));
        }
        return new CompiledClass(Instructions.nameOf(node.name), source, bytes, false, bounds, steps, List.copyOf(notes), captures);
    }

    private static void refuse(List<Problem> problems) throws CompileException {
        if (!problems.isEmpty()) {
            throw new CompileException(problems);
        }
    }

    private static byte[] toBytes(ClassNode node) throws CompileException {
        ClassWriter writer = new ClassWriter(ClassWriter.COMPUTE_FRAMES) {
            @Override
            protected String getCommonSuperClass(String a, String b) {
                return a.equals(b) ? a : NUMBERS.contains(a) && NUMBERS.contains(b) ? "java/lang/Number" : "java/lang/Object";
            }
        };
        try {
            node.accept(writer);
            return writer.toByteArray();
        } catch (MethodTooLargeException e) {
            throw new CompileException(List.of(new Problem(Instructions.nameOf(node.name), e.getMethodName(), -1,
                "with its loops written out the method has " + e.getCodeSize() + " bytes, and 65,535 are the most",
                "make fewer passes, or write an inner loop as a method of its own")));
        }
    }
}
