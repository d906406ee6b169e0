package jentry.compiler.link;

/**
 * The processor object that a class is compiled for.
 *
 * @param processor the object, or null if there is none at compile time
 * @param use what becomes of the values that it holds
 */
public record Holder(Object processor, Use use) {
    /** What becomes of the values that a processor holds. */
    public enum Use {
        /** They become hidden arguments, but for arrays. */
        ARGUMENTS,
        /** They become constants of the compiled class. */
        CONSTANTS,
        /** Final ones become constants, since every instance holds the same; others become hidden arguments. */
        OF_EVERY_INSTANCE
    }

    /** No object: all values become hidden arguments. */
    public static final Holder NONE = new Holder(null, Use.ARGUMENTS);

    boolean isConstant(boolean isFinal) {
        return processor != null && (use == Use.CONSTANTS || use == Use.OF_EVERY_INSTANCE && isFinal);
    }

    boolean isOfEvery() {
        return use == Use.OF_EVERY_INSTANCE;
    }
}
