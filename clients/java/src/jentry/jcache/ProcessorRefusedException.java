package jentry.jcache;

import java.util.List;
import javax.cache.CacheException;
import jentry.jcache.impl.OptionalCompiler;
import jentry.jcache.impl.Refusal;

/** The server refuses the class of a processor. Nothing was run, and no entry was changed. */
public final class ProcessorRefusedException extends CacheException {
    private static final long serialVersionUID = 1L;
    private static final int BAD_VERSION = Refusal.BAD_VERSION.number();
    private static final int BACKWARD_BRANCH = Refusal.BACKWARD_BRANCH.number();
    private static final int OUTSIDE_PROFILE = Refusal.OUTSIDE_PROFILE.number();
    private static final int TYPE_MISMATCH = Refusal.TYPE_MISMATCH.number();

    private final int number;
    private final int detail;
    private final String[] places;
    private final String remedy;

    /**
     * Creates an exception from the server's reply.
     *
     * @param processor the name of the class
     * @param number the number of the refusal
     * @param detail the opcode for refusal 17, the bytecode offset for refusal 22, else 0
     * @param places the places in the source that the refusal may refer to
     */
    public ProcessorRefusedException(String processor, int number, int detail, List<String> places) {
        super(text(processor, number, detail, places));
        this.number = number;
        this.detail = detail;
        this.places = places.toArray(new String[0]);
        remedy = remedy(number, detail);
    }

    /**
     * Creates an exception for a class that was sent uncompiled because the compiler failed on it.
     *
     * @param processor the name of the class
     * @param refusal the server's refusal, which becomes the cause
     * @param problem why the class couldn't be compiled, which is the remedy too
     */
    public ProcessorRefusedException(String processor, ProcessorRefusedException refusal, String problem) {
        super(processor + " can't be compiled: " + problem + " (as it is, it is refused: "
            + reason(refusal.number, refusal.detail, refusal.places()) + ")", refusal);
        number = refusal.number;
        detail = refusal.detail;
        places = refusal.places;
        remedy = problem;
    }

    private static String text(String processor, int number, int detail, List<String> places) {
        String text = processor + " is refused: " + reason(number, detail, places);
        String remedy = remedy(number, detail);
        return remedy.isEmpty() ? text : text + ". " + remedy;
    }

    /** Returns the server's advice, and for what the compiler alone can mend how to use it in the client. */
    private static String remedy(int number, int detail) {
        String remedy = Refusal.remedy(number, detail);
        boolean isForCompiler = number == BAD_VERSION || number == BACKWARD_BRANCH;
        return isForCompiler ? remedy + " To have the client compile it, " + OptionalCompiler.ADVICE + "." : remedy;
    }

    private static String reason(int number, int detail, List<String> places) {
        String text = number + " " + Refusal.title(number);
        if (number == OUTSIDE_PROFILE) {
            text += " opcode " + detail;
        } else if (number == TYPE_MISMATCH) {
            text += " at " + detail;
        }
        return places.isEmpty() ? text : text + ", in " + String.join(", ", places);
    }

    /** Returns the number of the refusal, from 1. */
    public int number() {
        return number;
    }

    /** Returns the server's name of the refusal, such as {@code BackwardBranch}. */
    public String refusal() {
        return Refusal.title(number);
    }

    /** Returns the opcode for refusal 17, the bytecode offset in the method for refusal 22, and 0 for all others. */
    public int detail() {
        return detail;
    }

    /**
     * Returns the places in the source that the refusal may refer to, such as {@code process line 12}: at most eight
     * for the refusals 15, 17, 20 and 22, and an empty list for all others.
     */
    public List<String> places() {
        return List.of(places);
    }

    /** Returns what to do instead, in the words of {@code jentry explain}. */
    public String remedy() {
        return remedy;
    }
}
