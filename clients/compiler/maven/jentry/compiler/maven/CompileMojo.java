package jentry.compiler.maven;

import java.io.ByteArrayOutputStream;
import java.io.File;
import java.io.PrintStream;
import java.util.ArrayList;
import java.util.List;
import jentry.compiler.cli.Main;
import org.apache.maven.plugin.AbstractMojo;
import org.apache.maven.plugin.MojoExecutionException;
import org.apache.maven.plugin.MojoFailureException;

/** The Maven goal `jentry:compile`. Its parameters are listed in plugin.xml. */
public final class CompileMojo extends AbstractMojo {
    private static final int FAILED = 3;

    private File classes;
    private File output;
    private List<String> classPath;
    private int calls;
    private String program;

    @Override
    public void execute() throws MojoExecutionException, MojoFailureException {
        if (!classes.isDirectory()) {
            getLog().info("there are no classes at " + classes);
            return;
        }
        List<String> words = new ArrayList<>(List.of(classes.toString(), "-d", output.toString(), "--explain"));
        words.addAll(List.of("--classpath", String.join(File.pathSeparator, classPath)));
        if (calls > 0) {
            words.add("--compare=" + calls);
        }
        if (program != null && !program.isEmpty()) {
            words.addAll(List.of("--check", "--program", program));
        }
        ByteArrayOutputStream out = new ByteArrayOutputStream();
        ByteArrayOutputStream err = new ByteArrayOutputStream();
        int status = Main.run(new PrintStream(out), new PrintStream(err), words.toArray(new String[0]));
        out.toString().lines().forEach(getLog()::info);
        err.toString().lines().forEach(getLog()::error);
        if (status == FAILED) {
            throw new MojoExecutionException("jentry-compile failed: " + err);
        } else if (status != 0) {
            throw new MojoFailureException("jentry-compile: " + err);
        }
    }
}
