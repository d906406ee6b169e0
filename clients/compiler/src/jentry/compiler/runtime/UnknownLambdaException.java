package jentry.compiler.runtime;

import java.util.List;
import jentry.compiler.CompileException;
import jentry.compiler.profile.Problem;

/** Thrown if the call doesn't show which lambda of a class is passed; another call may show it. */
public final class UnknownLambdaException extends CompileException {
    private static final long serialVersionUID = 1L;

    UnknownLambdaException(Problem problem) {
        super(List.of(problem));
    }
}
