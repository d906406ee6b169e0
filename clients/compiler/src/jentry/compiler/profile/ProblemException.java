package jentry.compiler.profile;

import java.util.List;

/** Ends a pass at problems after which it can't continue. */
public final class ProblemException extends Exception {
    private static final long serialVersionUID = 1L;

    private final transient List<Problem> problems;

    /** Creates an exception for one problem. */
    public ProblemException(Problem problem) {
        this(List.of(problem));
    }

    /** Creates an exception for one or more problems. */
    public ProblemException(List<Problem> problems) {
        super(problems.get(0).toString());
        this.problems = List.copyOf(problems);
    }

    /** Returns the first problem. */
    public Problem problem() {
        return problems.get(0);
    }

    /** Returns the problems, at least one. */
    public List<Problem> problems() {
        return problems;
    }
}
