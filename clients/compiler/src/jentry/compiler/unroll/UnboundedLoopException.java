package jentry.compiler.unroll;

import java.util.Map;

/** Thrown if loops of a method have no known end, or their passes are too many. */
final class UnboundedLoopException extends Exception {
    private static final long serialVersionUID = 1L;

    /** Why a loop isn't bounded. */
    enum Reason {
        NO_COUNTER("no counter ends this loop", "count the passes from a constant to a constant, as in for (int i = 0; i < 20 && left > 0; i++)"),
        TOO_MANY("this loop has too many passes, or counts up to a number that isn't known: written out, it takes more than " + UnrolledGraph.MOST_STATES
            + " instructions", "count to a constant, as in i < 64 && i < n, make fewer passes, or write an inner loop as a method of its own"),
        UNKNOWN_LIMIT("this loop counts to, or from, a number that isn't known",
            "limit the number, as in Math.min(n, 64), or count to a constant too, as in i < 64 && i < n"),
        MAY_BE_NEGATIVE("this loop shifts a value until it is 0, and a negative value never is", "shift by >>>, or test for > 0");

        private final String what;
        private final String remedy;

        Reason(String what, String remedy) {
            this.what = what;
            this.remedy = remedy;
        }

        String what() {
            return what;
        }

        String remedy() {
            return remedy;
        }
    }

    private final transient Map<Integer, Reason> lines;

    /**
     * Creates an exception.
     *
     * @param lines the lines of the loops' heads, or -1, and why they aren't bounded; at least one
     */
    UnboundedLoopException(Map<Integer, Reason> lines) {
        super(lines.toString());
        this.lines = lines;
    }

    Map<Integer, Reason> lines() {
        return lines;
    }

    /** Returns whether a loop seems to end but has too many passes. */
    boolean isTooLong() {
        return lines.containsValue(Reason.TOO_MANY);
    }
}
