package jentry.compiler.compare;

import java.util.Optional;
import java.util.Random;
import java.util.Set;
import jentry.compiler.CompiledClass;

/** Compares a class before and after compilation by running both on the same calls. */
public final class Comparison {
    /**
     * The first call with different outcomes.
     *
     * @param call the call
     * @param before its outcome with the original class
     * @param after its outcome with the compiled class
     */
    public record Difference(Call call, Outcome before, Outcome after) {
        @Override
        public String toString() {
            return call + ": the original " + before + ", the compiled class " + after;
        }
    }

    /**
     * The result of a comparison.
     *
     * @param difference the first difference, or empty
     * @param calls the number of calls that were compared
     * @param returned how many of them returned; the others threw
     * @param leftOut the number of calls that weren't compared: the original made too many passes of a loop, or the tested number of a loop that is computed
     *     at once left its range, so that the compiled class threw as its note says
     */
    public record Report(Optional<Difference> difference, int calls, int returned, int leftOut) {
        /** Below this number of calls that returned, a comparison says little. */
        public static final int FEW = 1_000;

        @Override
        public String toString() {
            return calls + " calls compared, " + (difference.isEmpty() ? "none differs" : "the last differs") + ": " + returned + " returned, "
                + (calls - returned) + " threw" + (leftOut == 0 ? "" : "; " + leftOut + " more calls go on in a loop where the compiled class throws");
        }
    }

    private static final int CALLS_OF_ONE = 50;

    /** The exceptions that a processor throws itself alone, so that their texts are the author's. */
    private static final Set<String> THROWN = Set.of("EntryProcessorException", "IllegalArgumentException", "IllegalStateException",
        "UnsupportedOperationException");

    private Comparison() { }

    /** Returns whether a text has nothing but characters of another one, in their order: the compiled class keeps the constant parts of a text. */
    static boolean isOfParts(String parts, String whole) {
        if (parts == null || whole == null) {
            return parts == null;
        }
        int at = 0;
        for (int i = 0; i < parts.length(); i++) {
            at = whole.indexOf(parts.charAt(i), at) + 1;
            if (at == 0) {
                return false;
            }
        }
        return true;
    }

    private static Outcome with(Outcome outcome, String text) {
        return new Outcome(outcome.thrown() + " with the text " + text, null, outcome.value());
    }

    /**
     * Compares two classes. If processors hold values, each 50 calls are of another one with other values.
     *
     * @param original the original class file
     * @param calls the number of calls
     * @param seed the seed of the random numbers: the same seed gives the same calls
     * @return what was compared, up to the first difference
     * @throws ReflectiveOperationException if one of the two classes can't be loaded or instantiated
     */
    public static Report compare(ClassPath path, byte[] original, CompiledClass compiled, int calls, long seed) throws ReflectiveOperationException {
        return compare(path, original, compiled, null, calls, seed);
    }

    /**
     * Compares two classes as {@link #compare(ClassPath, byte[], CompiledClass, int, long)} does, by calls of one processor.
     *
     * @param processor the processor that the class was compiled for, or null for others
     */
    public static Report compare(ClassPath path, byte[] original, CompiledClass compiled, Object processor, int calls, long seed)
            throws ReflectiveOperationException {
        Runner before = Runner.limited(path, original, compiled);
        Runner after = new Runner(path, compiled.bytes(), compiled.name());
        RandomCalls random = new RandomCalls(original, compiled.source(), seed);
        Random values = new Random(seed);
        int hidden = compiled.captures().hidden().size();
        int returned = 0;
        int leftOut = 0;
        for (int i = 0; i < calls; i++) {
            if (i == 0 && processor != null) {
                before.use(processor);
                after.hide(compiled.captures().arguments(processor));
            } else if (i % CALLS_OF_ONE == 0 && processor == null) {
                after.hide(compiled.captures().arguments(before.renew(values)));
            }
            Call call = random.next().within(ArgumentKinds.MOST_ARGUMENTS - hidden);
            Outcome one = before.run(call);
            Outcome other = after.run(call);
            if (before.isLeftOut(one, other, after.text())) {
                leftOut++;
                continue;
            }
            returned += one.thrown() == null ? 1 : 0;
            boolean hasText = THROWN.contains(String.valueOf(one.thrown())) && one.equals(other);
            if (hasText && !isOfParts(after.text(), before.text())) {
                return new Report(Optional.of(new Difference(call, with(one, before.text()), with(other, after.text()))), i + 1 - leftOut, returned, leftOut);
            } else if (!one.equals(other)) {
                return new Report(Optional.of(new Difference(call, one, other)), i + 1 - leftOut, returned, leftOut);
            }
        }
        return new Report(Optional.empty(), calls - leftOut, returned, leftOut);
    }
}
