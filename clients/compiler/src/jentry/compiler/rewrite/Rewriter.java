package jentry.compiler.rewrite;

import java.util.ArrayList;
import java.util.List;
import java.util.Map;
import java.util.Set;
import org.objectweb.asm.tree.ClassNode;
import jentry.compiler.profile.CallGraph;
import jentry.compiler.profile.ProblemException;
import jentry.compiler.unroll.LoopUnroller;
import jentry.compiler.unroll.RepeatedSteps;

/** Runs the passes before the unrolling of loops. Each one replaces constructs that the server refuses. */
public final class Rewriter {
    /** The start of the note of loops that are computed at once. */
    public static final String COMPUTED = "loops that add the same in each pass, computed at once";

    private Rewriter() { }

    /**
     * Rewrites a class in place.
     *
     * @param host the class that contained the lambda, or null if the class isn't made from a lambda
     * @param values the values of static fields that aren't those of the class's initialiser, by name
     * @param computesSteps whether loops that add the same in each pass are computed at once
     * @return the changes, one per line
     * @throws ProblemException if a pass can't preserve the meaning of the class
     */
    public static List<String> rewrite(ClassNode owner, ClassNode host, Map<String, Object> values, boolean computesSteps) throws ProblemException {
        List<String> notes = new ArrayList<>();
        owner.methods.forEach(it -> it.localVariables = null);
        ClassVersion.lower(owner);
        int texts = owner.methods.stream().mapToInt(it -> ThrownTexts.simplify(owner, it, type -> false)).sum();
        if (texts > 0) {
            notes.add("texts of exceptions of which the constant parts stay: " + texts);
        }
        SmallTypes.widen(owner);
        int tailCalls = TailCalls.replace(owner);
        if (tailCalls > 0) {
            notes.add("calls of a method by itself that became a loop: " + tailCalls);
        }
        BooleanConstants.replace(owner);
        FieldConstants constants = FieldConstants.of(owner, host, values);
        int before = owner.methods.size();
        CallGraph.dropUnused(owner);
        add(notes, constants.inline(), "fields that became constants");
        UnreachableCode.drop(owner);
        CallGraph.dropUnused(owner);
        if (owner.methods.size() < before) {
            notes.add("methods left out that process doesn't reach: " + (before - owner.methods.size()));
        }
        int steps = computesSteps ? RepeatedSteps.replace(owner) : 0;
        if (steps > 0) {
            notes.add(COMPUTED + ": " + steps + "; " + LoopUnroller.GOES_ON);
        }
        add(notes, LibraryCalls.replace(owner), "methods of the JDK copied in");
        int handlers = ArithmeticHandlers.replace(owner);
        if (handlers > 0) {
            notes.add("handlers of ArithmeticException that became tests: " + handlers);
            UnreachableCode.drop(owner);
            CallGraph.dropUnused(owner);
        }
        return notes;
    }

    private static void add(List<String> notes, Set<String> names, String what) {
        if (!names.isEmpty()) {
            notes.add(what + ": " + String.join(", ", names));
        }
    }
}
