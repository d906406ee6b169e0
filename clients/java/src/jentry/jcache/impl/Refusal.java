// Generated from the tables in protocol/ by protocol/generate.py --write.
package jentry.jcache.impl;

import java.util.HashMap;
import java.util.Map;

/** The reasons for which the server refuses a class, in the order of their numbers, each with what to do about it. */
public enum Refusal {
    TOO_LARGE("TooLarge",
        "A class has at most 65,536 bytes and 256 methods: share code by methods, put tables into arguments or "
            + "entries, and leave -g out."),
    TRUNCATED("Truncated",
        "The file is damaged, or no class file: compile it again."),
    BAD_MAGIC("BadMagic",
        "The file is no class file: name the .class file that javac made."),
    BAD_VERSION("BadVersion",
        "Compile with --release 8, or 7."),
    BAD_POOL("BadPool",
        "The file is damaged, or no class file: compile it again."),
    TRAILING_BYTES("TrailingBytes",
        "The file is damaged, or no class file: compile it again."),
    BAD_DESCRIPTOR("BadDescriptor",
        "A method has a parameter or a result of a type that isn't accepted: use int, long, boolean, Object, "
            + "Number, Long, Integer, Boolean, Void, the entry, int[], long[] or Object[]. jentry-compile takes "
            + "byte, short and char, and leaves unused methods out."),
    BAD_HEADER("BadHeader",
        "Write a plain class with `implements EntryProcessor<Long, Long, ..>` that extends no other, and copy "
            + "what an abstract base class would hold."),
    CONSTRUCTOR_FORM("ConstructorForm",
        "A class has the constructor that javac writes, and no other: `static final` for constants, arguments "
            + "for what changes, and no constructor in the source."),
    CLASS_INITIALISER("ClassInitialiser",
        "No code runs when a class is loaded: write `static final` of int or long with a constant, a local "
            + "array, or a method that gives the value. jentry-compile computes static final tables and boxed "
            + "constants at compile time."),
    NO_PROCESS("NoProcess",
        "Write a public `process` of the instance in the class itself."),
    DUPLICATE_METHOD("DuplicateMethod",
        "Two methods have one name and one descriptor: drop one."),
    NO_BODY("NoBody",
        "A native or abstract method has no code: write it in Java."),
    BAD_CODE("BadCode",
        "The parts of the code don't fit together: compile it again."),
    EXCEPTION_TABLE("ExceptionTable",
        "Exceptions can't be caught: test before you act, let the exception end the run, and drop "
            + "`synchronized`."),
    UNKNOWN_OPCODE("UnknownOpcode",
        "No Java source was seen to cause this: compile the class again."),
    OUTSIDE_PROFILE("OutsideProfile", ""),
    BAD_OPERAND("BadOperand",
        "This call or operand isn't known here: write what is called as a method of the class."),
    BAD_TARGET("BadTarget",
        "No Java source was seen to cause this: compile the class again."),
    BACKWARD_BRANCH("BackwardBranch",
        "Loops aren't accepted as they are: compile the class with jentry-compile, which writes the passes of "
            + "counted loops out, or use a formula."),
    BAD_STACK_MAP("BadStackMap",
        "Where ways through the code meet, each local in use has a type that is known here: declare it as "
            + "Object, Number, Long, Integer or Boolean."),
    TYPE_MISMATCH("TypeMismatch",
        "No Java source was seen to cause this: compile the class again."),
    FALLS_OFF("FallsOff",
        "No Java source was seen to cause this: compile the class again."),
    UNKNOWN_MEMBER("UnknownMember",
        "Only methods of the class itself and a few of the entry, Long, Integer, Boolean, Number and Math are "
            + "known: write it as a method of the class, and cast to Long, Integer, Boolean, Number or Object. "
            + "jentry-compile copies most methods of Long, Integer, Boolean, Math and Objects into the class."),
    RECURSIVE("Recursive",
        "A method mustn't call itself, straight or by others: write a chain of methods, one for each level, or "
            + "a formula."),
    LENGTH_NOT_CONSTANT("LengthNotConstant",
        "The length of a new array is a constant from 0 to 65,535: take the greatest length as `final int`, "
            + "and keep a count beside it."),
    STEP_LIMIT("StepLimit",
        "Some way through the code has more than 4,000,000 instructions: make fewer calls."),
    WORD_LIMIT("WordLimit",
        "The arrays of one way through the code take more than 65,536 words: make an array once, and hand it "
            + "on."),
    FRAME_LIMIT("FrameLimit",
        "More than 64 methods are open at once, or more than 8,192 slots in them: flatten the chain of calls, "
            + "and use fewer locals."),
    NO_MEMORY("NoMemory",
        "There was no memory left to judge the class.");

    private static final Refusal[] ALL = values();
    private static final Map<Integer, String> OPCODES = new HashMap<>();
    private static final String OTHER_OPCODE =
        "float and double aren't accepted: use fixed point in `long`, as `v * 119 / 100`.";

    static {
        add("Texts other than those of exceptions that are thrown, classes and floats aren't "
                            + "accepted as constants: use numbers as codes, or fixed point in `long`.", 18, 19);
        add("References can't be compared: compare numbers, as `a.longValue() == b.longValue()`.", 165, 166);
        add("Static fields other than Boolean.TRUE and Boolean.FALSE, and enums, can't be used: "
                            + "use arguments, locals, the entry's value, or numbers as codes. jentry-compile makes "
                            + "constants of final fields.", 178, 179);
        add("Fields can't be read or written: use arguments, locals or the entry's value. "
                            + "jentry-compile makes constants of final fields.", 180, 181);
        add("Lambdas and method references aren't accepted: write a method of the class.", 186);
        add("Texts can't be joined, and no object can be made but an exception that is thrown at "
                            + "once, without a text or with a constant one: ArithmeticException, "
                            + "EntryProcessorException, IllegalArgumentException, IllegalStateException or "
                            + "UnsupportedOperationException. Use locals, or a `long` that packs several numbers.", 187);
        add("Arrays are of int or long: write `int[]` or `long[]`. jentry-compile makes int arrays "
                            + "of byte, short, char and boolean arrays.", 51, 52, 53, 84, 85, 86, 188);
        add("Arrays of references can't be made or written: use `long[]`, `long...`, or parameters "
                            + "one by one.", 83, 189);
        add("Only an exception that is made at once can be thrown: write `throw new "
                            + "IllegalStateException()`, or with a constant text in the parentheses.", 191);
        add("Drop `synchronized`: each run has an instance of its own.", 194, 195);
        add("No Java source was seen to cause this: compile the class again.", 168, 169, 201);
        add("Use one array, with the index `width * i + j`.", 197);
    }

    private final String title;
    private final String remedy;

    Refusal(String title, String remedy) {
        this.title = title;
        this.remedy = remedy;
    }

    private static void add(String remedy, int... opcodes) {
        for (int opcode : opcodes) {
            OPCODES.put(opcode, remedy);
        }
    }

    /** Returns the server's name of a refusal number. */
    public static String title(int number) {
        return number > 0 && number <= ALL.length ? ALL[number - 1].title : "refusal " + number;
    }

    /** Returns what to do instead, in the words of {@code jentry explain}, or an empty string for an unknown number. */
    public static String remedy(int number, int detail) {
        if (number == OUTSIDE_PROFILE.number()) {
            return OPCODES.getOrDefault(detail, OTHER_OPCODE);
        }
        return number > 0 && number <= ALL.length ? ALL[number - 1].remedy : "";
    }

    /** Returns the server's number, from 1. */
    public int number() {
        return ordinal() + 1;
    }
}
