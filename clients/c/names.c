/* The names of the refusals and exceptions, by their numbers. */
#include "jentry.h"

/* generated from the tables in protocol/ by protocol/generate.py --write */
static const char *const refusals[] = {
    "TooLarge", "Truncated", "BadMagic", "BadVersion", "BadPool", "TrailingBytes", "BadDescriptor", "BadHeader",
    "ConstructorForm", "ClassInitialiser", "NoProcess", "DuplicateMethod", "NoBody", "BadCode", "ExceptionTable",
    "UnknownOpcode", "OutsideProfile", "BadOperand", "BadTarget", "BackwardBranch", "BadStackMap", "TypeMismatch",
    "FallsOff", "UnknownMember", "Recursive", "LengthNotConstant", "StepLimit", "WordLimit", "FrameLimit", "NoMemory",
};

static const char *const exceptions[] = {
    "ArithmeticException", "ArrayIndexOutOfBoundsException", "NullPointerException", "ClassCastException",
    "IncompatibleClassChangeError", "CacheLoaderException", "EntryProcessorException", "IllegalArgumentException",
    "IllegalStateException", "UnsupportedOperationException",
};
/* end of the generated part */

const char *jentry_refusal_name(uint32_t refusal) {
    return refusal - 1u < sizeof refusals / sizeof *refusals ? refusals[refusal - 1] : "";
}

const char *jentry_exception_name(int64_t exception) {
    return (uint64_t)exception - 1u < sizeof exceptions / sizeof *exceptions ? exceptions[exception - 1] : "";
}
