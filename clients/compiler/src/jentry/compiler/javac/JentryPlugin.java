package jentry.compiler.javac;

import com.sun.source.tree.CompilationUnitTree;
import com.sun.source.tree.LineMap;
import com.sun.source.tree.Tree;
import com.sun.source.util.JavacTask;
import com.sun.source.util.Plugin;
import com.sun.source.util.TaskEvent;
import com.sun.source.util.TaskListener;
import com.sun.source.util.TreeScanner;
import com.sun.source.util.Trees;
import java.io.File;
import java.io.IOException;
import java.nio.file.Files;
import java.nio.file.Path;
import java.util.HashMap;
import java.util.LinkedHashMap;
import java.util.List;
import java.util.Map;
import javax.tools.Diagnostic;
import jentry.compiler.CompileException;
import jentry.compiler.ProcessorCompiler;
import jentry.compiler.ProgramClasses;
import jentry.compiler.compare.ClassPath;
import jentry.compiler.profile.Problem;

/**
 * A plugin of javac that reports a processor which can't be compiled for jentry as a diagnostic at its line.
 *
 * <p>{@code javac -Xplugin:"jentry OUT [warn] [--classpath PATH]"}: OUT is the folder of -d. Problems are errors, with `warn` warnings. Other classes that a
 * processor uses are read from OUT, then from the folders and jars of PATH: javac doesn't show its own class path to plugins.
 */
public final class JentryPlugin implements Plugin {
    private Trees trees;
    private Path output;
    private String classPath;
    private Diagnostic.Kind kind = Diagnostic.Kind.ERROR;

    /** The first tree of each line, by source file: javac changes its trees before it writes the class files. */
    private final Map<CompilationUnitTree, Map<Long, Tree>> lines = new HashMap<>();
    private final Map<String, CompilationUnitTree> written = new LinkedHashMap<>();

    @Override
    public String getName() {
        return "jentry";
    }

    @Override
    public void init(JavacTask task, String... words) {
        List<String> options = words.length == 0 ? List.of() : List.of(words).subList(1, words.length);
        boolean warns = options.contains("warn");
        List<String> more = options.subList(warns && options.get(0).equals("warn") ? 1 : 0, options.size());
        boolean namesPath = more.size() == 2 && more.get(0).equals("--classpath");
        if (words.length == 0 || !more.isEmpty() && !namesPath) {
            throw new IllegalArgumentException("-Xplugin:\"jentry OUT [warn] [--classpath PATH]\" names the folder of class files, as -d does");
        }
        output = Path.of(words[0]);
        classPath = namesPath ? output + File.pathSeparator + more.get(1) : output.toString();
        kind = warns ? Diagnostic.Kind.WARNING : Diagnostic.Kind.ERROR;
        trees = Trees.instance(task);
        task.addTaskListener(new TaskListener() {
            @Override
            public void finished(TaskEvent event) {
                handle(task, event);
            }
        });
    }

    private void handle(JavacTask task, TaskEvent event) {
        switch (event.getKind()) {
            case PARSE -> lines.put(event.getCompilationUnit(), linesOf(event.getCompilationUnit()));
            case GENERATE -> written.put(task.getElements().getBinaryName(event.getTypeElement()).toString(), event.getCompilationUnit());
            case COMPILATION -> written.forEach(this::check);
            default -> { }
        }
    }

    private Map<Long, Tree> linesOf(CompilationUnitTree unit) {
        Map<Long, Tree> found = new HashMap<>();
        LineMap map = unit.getLineMap();
        new TreeScanner<Void, Void>() {
            @Override
            public Void scan(Tree tree, Void nothing) {
                long start = tree == null ? Diagnostic.NOPOS : trees.getSourcePositions().getStartPosition(unit, tree);
                if (start != Diagnostic.NOPOS) {
                    found.putIfAbsent(map.getLineNumber(start), tree);
                }
                return super.scan(tree, nothing);
            }
        }.scan(unit, null);
        return found;
    }

    private void check(String name, CompilationUnitTree unit) {
        try {
            byte[] classFile = Files.readAllBytes(output.resolve(name.replace('.', '/') + ".class"));
            ProcessorCompiler compiler = new ProcessorCompiler(false, ProgramClasses.of(new ClassPath(classPath).loader(), false));
            if (compiler.hasProcessors(classFile)) {
                compiler.compileAll(classFile).problems().forEach(it -> report(unit, it));
            }
        } catch (CompileException e) {
            e.problems().forEach(it -> report(unit, it));
        } catch (IOException e) {
            trees.printMessage(Diagnostic.Kind.WARNING, "jentry: the class file of " + name + " isn't in " + output + ": name the folder of -d", unit, unit);
        }
    }

    private void report(CompilationUnitTree unit, Problem problem) {
        Tree tree = lines.getOrDefault(unit, Map.of()).getOrDefault((long) problem.line(), unit);
        trees.printMessage(kind, "jentry: " + (tree == unit ? problem : problem.what() + (problem.remedy().isEmpty() ? "" : "; " + problem.remedy())), tree, unit);
    }
}
