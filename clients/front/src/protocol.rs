//! Generated from the tables in protocol/ by `protocol/generate.py --write`: the numbers of the protocol.

/// The maximum length of a frame, in bytes after the length field.
pub const LONGEST: usize = 131_072;

/// The maximum number of jobs in a round: one for each call, and one for each key of an invokeAll.
pub const MOST_JOBS: usize = 4_096;

/// The maximum number of accepted classes of a stream.
pub const MOST_CLASSES: usize = 4_096;

/// The maximum number of arguments of an invocation.
pub const MOST_ARGUMENTS: usize = 8;

/// The names of the kinds of requests but the end of a round, by number.
pub const REQUESTS: [&str; 8] =
    ["", "define", "put", "get", "remove", "contains", "invoke", "invoke_all"];

/// The names of the kinds of replies but the end of a round, by number.
pub const REPLIES: [&str; 9] =
    ["", "defined", "refused", "done", "value", "flag", "result", "results", "denied"];

/// The names of the reasons for which the server or the front doesn't run a request, by number.
pub const DENIALS: [&str; 6] =
    ["", "UnknownClass", "JournalFull", "NoMemory", "TooManyClasses", "TooManyJobs"];

/// The names of the ways in which a processor ends without a result, by number.
pub const EXCEPTIONS: [&str; 11] = [
    "",
    "ArithmeticException",
    "ArrayIndexOutOfBoundsException",
    "NullPointerException",
    "ClassCastException",
    "IncompatibleClassChangeError",
    "CacheLoaderException",
    "EntryProcessorException",
    "IllegalArgumentException",
    "IllegalStateException",
    "UnsupportedOperationException",
];

/// The names of the reasons for which the server refuses a class, by number.
pub const REFUSALS: [&str; 31] = [
    "",
    "TooLarge",
    "Truncated",
    "BadMagic",
    "BadVersion",
    "BadPool",
    "TrailingBytes",
    "BadDescriptor",
    "BadHeader",
    "ConstructorForm",
    "ClassInitialiser",
    "NoProcess",
    "DuplicateMethod",
    "NoBody",
    "BadCode",
    "ExceptionTable",
    "UnknownOpcode",
    "OutsideProfile",
    "BadOperand",
    "BadTarget",
    "BackwardBranch",
    "BadStackMap",
    "TypeMismatch",
    "FallsOff",
    "UnknownMember",
    "Recursive",
    "LengthNotConstant",
    "StepLimit",
    "WordLimit",
    "FrameLimit",
    "NoMemory",
];

/// The kinds of requests.
#[allow(dead_code)]
pub mod requests {
    pub const DEFINE: u8 = 1;
    pub const PUT: u8 = 2;
    pub const GET: u8 = 3;
    pub const REMOVE: u8 = 4;
    pub const CONTAINS: u8 = 5;
    pub const INVOKE: u8 = 6;
    pub const INVOKE_ALL: u8 = 7;
    pub const END: u8 = 8;
}

/// The kinds of replies.
#[allow(dead_code)]
pub mod replies {
    pub const DEFINED: u8 = 1;
    pub const REFUSED: u8 = 2;
    pub const DONE: u8 = 3;
    pub const VALUE: u8 = 4;
    pub const FLAG: u8 = 5;
    pub const RESULT: u8 = 6;
    pub const RESULTS: u8 = 7;
    pub const DENIED: u8 = 8;
    pub const ENDED: u8 = 9;
}

/// The kinds of outcomes.
#[allow(dead_code)]
pub mod outcomes {
    pub const RETURNED: u8 = 0;
    pub const THREW: u8 = 1;
    pub const NOT_RUN: u8 = 2;
    pub const THROWN: u8 = 3;
}

/// The kinds of values in arguments and results.
#[allow(dead_code)]
pub mod values {
    pub const NULL: u8 = 0;
    pub const LONG: u8 = 1;
    pub const INTEGER: u8 = 2;
    pub const FALSE: u8 = 3;
    pub const TRUE: u8 = 4;
}
