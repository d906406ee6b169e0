# Generated from the tables in protocol/ by protocol/generate.py --write.
"""The numbers of the protocol, with their names, and its limits."""
REFUSALS = (
    None,
    "TooLarge",
    "Truncated",
    "BadMagic",
    "BadVersion",
    "BadPool",
    "TrailingBytes",
    "BadDescriptor",
    "BadHeader",
    "ConstructorForm",
    "ClassInitialiser",
    "NoProcess",
    "DuplicateMethod",
    "NoBody",
    "BadCode",
    "ExceptionTable",
    "UnknownOpcode",
    "OutsideProfile",
    "BadOperand",
    "BadTarget",
    "BackwardBranch",
    "BadStackMap",
    "TypeMismatch",
    "FallsOff",
    "UnknownMember",
    "Recursive",
    "LengthNotConstant",
    "StepLimit",
    "WordLimit",
    "FrameLimit",
    "NoMemory",
)
EXCEPTIONS = (
    None,
    "ArithmeticException",
    "ArrayIndexOutOfBoundsException",
    "NullPointerException",
    "ClassCastException",
    "IncompatibleClassChangeError",
    "CacheLoaderException",
    "EntryProcessorException",
    "IllegalArgumentException",
    "IllegalStateException",
    "UnsupportedOperationException",
)
DENIALS = (None, "UnknownClass", "JournalFull", "NoMemory", "TooManyClasses", "TooManyJobs")

# The kinds of a request.
DEFINE = 1
PUT = 2
GET = 3
REMOVE = 4
CONTAINS = 5
INVOKE = 6
INVOKE_ALL = 7
END = 8

# The kinds of a reply.
DEFINED = 1
REFUSED = 2
DONE = 3
VALUE = 4
FLAG = 5
RESULT = 6
RESULTS = 7
DENIED = 8
ENDED = 9

# The kinds of an outcome.
RETURNED = 0
THREW = 1
NOT_RUN = 2
THROWN = 3

# The kinds of a value.
NULL = 0
LONG = 1
INTEGER = 2
FALSE = 3
TRUE = 4

LONGEST = 131_072
"""The maximum length of a frame, in bytes after the length field."""
MOST_JOBS = 4_096
"""The maximum number of jobs in a round: one for each call, and one for each key of an invokeAll."""
MOST_CLASSES = 4_096
"""The maximum number of accepted classes of a stream."""
MOST_ARGUMENTS = 8
"""The maximum number of arguments of an invocation."""
