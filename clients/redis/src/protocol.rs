//! Generated from the tables in protocol/ by `protocol/generate.py --write`: the names of the core's numbers.

/// The names of the refusals, from number 1 on.
pub const REFUSALS: [&str; 30] = [
    "TooLarge",
    "Truncated",
    "BadMagic",
    "BadVersion",
    "BadPool",
    "TrailingBytes",
    "BadDescriptor",
    "BadHeader",
    "ConstructorForm",
    "ClassInitialiser",
    "NoProcess",
    "DuplicateMethod",
    "NoBody",
    "BadCode",
    "ExceptionTable",
    "UnknownOpcode",
    "OutsideProfile",
    "BadOperand",
    "BadTarget",
    "BackwardBranch",
    "BadStackMap",
    "TypeMismatch",
    "FallsOff",
    "UnknownMember",
    "Recursive",
    "LengthNotConstant",
    "StepLimit",
    "WordLimit",
    "FrameLimit",
    "NoMemory",
];

/// The names of the exceptions, from number 1 on.
pub const EXCEPTIONS: [&str; 10] = [
    "ArithmeticException",
    "ArrayIndexOutOfBoundsException",
    "NullPointerException",
    "ClassCastException",
    "IncompatibleClassChangeError",
    "CacheLoaderException",
    "EntryProcessorException",
    "IllegalArgumentException",
    "IllegalStateException",
    "UnsupportedOperationException",
];
