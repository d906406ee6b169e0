package jentry.compiler;

import java.util.List;
import java.util.stream.Collectors;
import jentry.compiler.profile.Problem;

/** Thrown if a class can't be compiled to one that the verifier accepts. It has every problem that was found, with its method and line. */
public class CompileException extends Exception {
    private static final long serialVersionUID = 1L;

    private final transient List<Problem> problems;

    /**
     * Creates an exception.
     *
     * @param problems one or more problems
     */
    public CompileException(List<Problem> problems) {
        super(problems.stream().map(Problem::toString).collect(Collectors.joining(System.lineSeparator())));
        this.problems = List.copyOf(problems);
    }

    /** Returns the problems, at least one. */
    public List<Problem> problems() {
        return problems;
    }
}
