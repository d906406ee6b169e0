package jentry.compiler.cli;

import java.io.IOException;
import java.io.PrintStream;
import java.nio.file.Files;
import java.nio.file.Path;
import jentry.compiler.CompileException;
import jentry.compiler.CompiledClass;
import jentry.compiler.ProcessorCompiler;
import jentry.compiler.ProgramClasses;
import jentry.compiler.compare.ClassPath;
import jentry.compiler.compare.Comparison;
import jentry.compiler.profile.Problem;

/** The command `jentry-compile`. */
public final class Main {
    private static final String VERSION = "jentry-compile 0.2.0";
    private static final int BAD_COMMAND = 1;
    private static final int REFUSED = 2;
    private static final int FAILED = 3;
    private static final int DIFFERENT = 4;
    private static final String HELP = """
        usage: jentry-compile [OPTION..] IN.. -d OUT

        Compiles class files of entry processors to class files that jentry accepts: loops are written out, and lambdas, static tables and other things
        replaced. A class that jentry accepts already is copied as it is. IN is a class file, a folder or a jar; OUT is a folder, and another one.

          -d OUT           where the class files go, by their packages
          --explain        print what was done to each class and to which loop
          --verbatim       keep each instruction: the bound is then that of the loops, jumps aside that the order needs
          --check          run `jentry check` on each class that was written
          --program FILE   the program for --check: JENTRY_PROGRAM, or jentry on the path, where it isn't named
          --compare[=N]    run each class before and after compilation on N random calls (10,000) with arguments of the kinds that it casts to, and
                           print how many returned, or the first that ends otherwise; fewer than 1,000 that returned are a warning
          --seed N         of the random numbers (1)
          --classpath PATH where the other classes are that these use; the folders and jars among IN are there anyway
          --help, --version

        The status is 0, or 1 for a bad command line, 2 where a class can't be compiled or is refused, 3 where a file can't be read, written or loaded,
        4 where a compiled class does something else than its original. Classes that have no problem are written in any case.
        """;

    private final Options options;
    private final PrintStream out;
    private final PrintStream err;
    private int status;
    private int withoutProcessors;

    private Main(Options options, PrintStream out, PrintStream err) {
        this.options = options;
        this.out = out;
        this.err = err;
    }

    /** Runs the command and exits with its status. */
    public static void main(String[] words) {
        System.exit(run(System.out, System.err, words));
    }

    /** Runs the command and returns its status. */
    public static int run(PrintStream out, PrintStream err, String... words) {
        try {
            Options options = new Options(words);
            if (options.isHelp || options.isVersion) {
                out.print(options.isHelp ? HELP : VERSION + System.lineSeparator());
                return 0;
            }
            return new Main(options, out, err).compile();
        } catch (Options.UsageException e) {
            err.println("jentry-compile: " + e.getMessage() + " (--help)");
            return BAD_COMMAND;
        }
    }

    private int compile() {
        ClassPath path = new ClassPath(classPath());
        int inputs = 0;
        for (Path place : options.inputs) {
            try {
                for (Inputs.Input input : Inputs.of(place)) {
                    inputs++;
                    compile(input, path);
                }
            } catch (IOException e) {
                fail(FAILED, place + " can't be read: " + e);
            }
        }
        if (withoutProcessors > 0 && withoutProcessors == inputs) {
            fail(REFUSED, "there is no EntryProcessor in what was named: write a class that implements it, or a lambda");
        } else if (withoutProcessors > 0) {
            out.println(withoutProcessors + " class files without a processor left out");
        }
        return status;
    }

    private String classPath() {
        StringBuilder path = new StringBuilder(options.classPath);
        for (Path input : options.inputs) {
            path.append(java.io.File.pathSeparator).append(input.toString().endsWith(".class") ? Inputs.rootOf(input) : input);
        }
        return path.toString();
    }

    private void fail(int worse, String why) {
        status = Math.max(status, worse);
        err.println("jentry-compile: " + why);
    }

    private void compile(Inputs.Input input, ClassPath path) {
        try {
            ProcessorCompiler compiler = new ProcessorCompiler(options.isVerbatim, ProgramClasses.of(path.loader(), false));
            if (!compiler.hasProcessors(input.bytes())) {
                withoutProcessors++;
                return;
            }
            ProcessorCompiler.Result result = compiler.compileAll(input.bytes());
            for (Problem problem : result.problems()) {
                fail(REFUSED, problem.toString());
            }
            for (CompiledClass compiled : result.classes()) {
                write(input, compiled, path);
            }
        } catch (CompileException e) {
            fail(REFUSED, input.name() + ": " + e.problems().get(0).what() + "; " + e.problems().get(0).remedy());
        }
    }

    private void write(Inputs.Input input, CompiledClass compiled, ClassPath path) {
        boolean isCompared = options.calls > 0 && !compiled.isUnchanged();
        Comparison.Report report = isCompared ? compared(input, compiled, path) : null;
        if (isCompared && (report == null || report.difference().isPresent())) {
            return;
        }
        Path file = options.output.resolve(compiled.name().replace('.', '/') + ".class");
        try {
            if (input.file() != null && Files.exists(file) && Files.isSameFile(input.file(), file)) {
                fail(FAILED, file + " is the original: name another folder by -d");
                return;
            }
            Files.createDirectories(file.getParent());
            Files.write(file, compiled.bytes());
        } catch (IOException e) {
            fail(FAILED, file + " can't be written: " + e);
            return;
        }
        out.println(compiled.name() + ": " + (compiled.isUnchanged() ? "unchanged" : input.bytes().length + " bytes became " + compiled.bytes().length)
            + ", " + compiled.bounds());
        if (options.explains) {
            explain(compiled);
        } else if (!compiled.captures().hidden().isEmpty()) {
            out.println("  " + compiled.notes().get(0));
        }
        if (isCompared) {
            tell(compiled, report);
        }
        if (options.checks) {
            check(file);
        }
    }

    private void explain(CompiledClass compiled) {
        compiled.notes().forEach(it -> out.println("  " + it));
        if (!compiled.isUnchanged()) {
            out.println("  steps: " + compiled.stepsWithLoops() + " with loops, now " + compiled.bounds().steps());
        }
    }

    private void check(Path file) {
        try {
            Process process = new ProcessBuilder(options.program, "check", file.toString()).redirectErrorStream(true).start();
            String printed = new String(process.getInputStream().readAllBytes()).strip();
            if (process.waitFor() == 0) {
                out.println("  " + printed);
            } else {
                fail(REFUSED, file + ": jentry says: " + printed);
            }
        } catch (IOException e) {
            fail(FAILED, "the program " + options.program + " can't be run (name it by --program or JENTRY_PROGRAM): " + e.getMessage());
        } catch (InterruptedException e) {
            Thread.currentThread().interrupt();
            fail(FAILED, "interrupted");
        }
    }

    private void tell(CompiledClass compiled, Comparison.Report report) {
        out.println("  " + report);
        if (report.returned() < Comparison.Report.FEW) {
            err.println("jentry-compile: warning: " + compiled.name() + ": only " + report.returned() + " of " + report.calls()
                + " calls returned, which compares little: compare more by --compare=N, or test the compiled class with arguments of your own");
        }
    }

    /** Returns what the comparison found, or null if the class can't be loaded. */
    private Comparison.Report compared(Inputs.Input input, CompiledClass compiled, ClassPath path) {
        try {
            Comparison.Report report = Comparison.compare(path, input.bytes(), compiled, options.calls, options.seed);
            report.difference().ifPresent(it -> fail(DIFFERENT, compiled.name() + " does something else than "
                + compiled.source().replaceFirst("\\(.*", "") + ", and isn't written: " + it));
            return report;
        } catch (ReflectiveOperationException | LinkageError e) {
            fail(FAILED, compiled.name() + " can't be compared, since it can't be loaded (name what it needs by --classpath), and isn't written: " + e);
            return null;
        }
    }
}
