"""Class files for the tests: one constructor, one constant pool, and a test's own methods (JVMS 4.1). The crate rowclasses has the same classes."""
import struct
from collections import namedtuple

Method = namedtuple("Method", "flags name descriptor max_stack max_locals code exceptions frames")
"""A method whose only attribute is Code, by indexes into the pool. `exceptions` is its exception table, 8 bytes per entry; `frames` are its declared
frames, or None."""
Frames = namedtuple("Frames", "count entries")
"""The entries of a StackMapTable, and their count (JVMS 4.7.4)."""


def u2(*numbers):
    return struct.pack(f">{len(numbers)}H", *numbers)


def u4(number):
    return struct.pack(">I", number)


def utf8(text):
    return b"\1" + u2(len(text)) + text


def reference(tag, *indexes):
    """A constant that is one index, or two."""
    return bytes([tag]) + u2(*indexes)


def integer(bits):
    return b"\3" + u4(bits)


def float_(bits):
    return b"\4" + u4(bits)


def long_(bits):
    return b"\5" + struct.pack(">Q", bits)


def double(bits):
    return b"\6" + struct.pack(">Q", bits)


def class_(name):
    return reference(7, name)


def string(text):
    return reference(8, text)


def fieldref(of, pair):
    return reference(9, of, pair)


def methodref(of, pair):
    return reference(10, of, pair)


def interface_methodref(of, pair):
    return reference(11, of, pair)


def name_and_type(name, descriptor):
    return reference(12, name, descriptor)


def method_handle(kind, member):
    return bytes([15, kind]) + u2(member)


def method_type(descriptor):
    return reference(16, descriptor)


def invoke_dynamic(bootstrap, pair):
    return reference(18, bootstrap, pair)


POOL = [
    utf8(b"Row"),
    class_(1),
    utf8(b"java/lang/Object"),
    class_(3),
    utf8(b"javax/cache/processor/EntryProcessor"),
    class_(5),
    utf8(b"<init>"),
    utf8(b"()V"),
    name_and_type(7, 8),
    methodref(4, 9),
    utf8(b"Code"),
    utf8(b"process"),
    utf8(b"(Ljavax/cache/processor/MutableEntry;[Ljava/lang/Object;)Ljava/lang/Object;"),
    utf8(b"StackMapTable"),
    utf8(b"javax/cache/processor/MutableEntry"),
    class_(15),
    utf8(b"java/lang/Long"),
    class_(17),
    utf8(b"exists"),
    utf8(b"()Z"),
    name_and_type(19, 20),
    interface_methodref(16, 21),
    utf8(b"getValue"),
    utf8(b"()Ljava/lang/Object;"),
    name_and_type(23, 24),
    interface_methodref(16, 25),
    utf8(b"setValue"),
    utf8(b"(Ljava/lang/Object;)V"),
    name_and_type(27, 28),
    interface_methodref(16, 29),
    utf8(b"remove"),
    name_and_type(31, 8),
    interface_methodref(16, 32),
    utf8(b"longValue"),
    utf8(b"()J"),
    name_and_type(34, 35),
    methodref(18, 36),
    utf8(b"valueOf"),
    utf8(b"(J)Ljava/lang/Long;"),
    name_and_type(38, 39),
    methodref(18, 40),
    utf8(b"help"),
    utf8(b"(J)J"),
    name_and_type(42, 43),
    methodref(2, 44),
    utf8(b"other"),
    name_and_type(46, 43),
    methodref(2, 47),
    long_(0x8000000000000000),
    integer(0x0000FFFF),
    utf8(b"(Ljavax/cache/processor/MutableEntry;[Ljava/lang/Object;)Ljava/lang/Long;"),
    name_and_type(12, 52),
    methodref(2, 53),
]
"""The constants from index 1 on; the long takes two indexes."""
FURTHER = 55
"""The index of the first constant after them."""
HELP, OTHER = 42, 46
"""The indexes of two names of methods."""


def indexes_of(constants):
    """Returns the number of indexes that constants take: a long and a double take two (JVMS 4.4.5)."""
    return sum(2 if constant[0] in (5, 6) else 1 for constant in constants)


def process(max_stack, max_locals, code, frames=None, **other):
    """`process`, ACC_PUBLIC and ACC_VARARGS, with the erased descriptor."""
    return Method(0x0081, 12, 13, max_stack, max_locals, bytes(code), b"", frames)._replace(**other)


def static(max_stack, max_locals, code, name=HELP):
    """A static method from long to long, by default `help`."""
    return Method(0x0008, name, 43, max_stack, max_locals, bytes(code), b"", None)


CONSTRUCTOR = Method(0x0001, 7, 8, 1, 1, b"\x2a\xb7\0\x0a\xb1", b"", None)
"""aload_0, invokespecial java/lang/Object.<init>()V, return"""


def table_of(frames):
    return u2(14) + u4(len(frames.entries) + 2) + u2(frames.count) + bytes(frames.entries)


def method_of(method):
    table = u2(1) + table_of(method.frames) if method.frames else u2(0)
    code = u2(method.max_stack, method.max_locals) + u4(len(method.code)) + method.code
    code += u2(len(method.exceptions) // 8) + method.exceptions + table
    return u2(method.flags, method.name, method.descriptor, 1, 11) + u4(len(code)) + code


def class_of(*methods, further=(), constructor=CONSTRUCTOR):
    """Returns the bytes of a class with these methods. The further constants follow those that are in the pool of each class."""
    head = b"\xca\xfe\xba\xbe" + u2(0, 52, FURTHER + indexes_of(further)) + b"".join([*POOL, *further])
    body = u2(0x0021, 2, 4, 1, 6, 0, len(methods) + 1) + method_of(constructor)
    return head + body + b"".join(method_of(method) for method in methods) + u2(0)


PLUS = bytes.fromhex("2bb9001a0100c00012b600250a61422b21b80029b9001e020021b80029b0")
RATIO = bytes.fromhex("2bb9001a0100c00012b6002542210a949a000501b00a216db80029b0")
GIVE = b"\x2b\xb0"
"""aload_1, areturn"""


def plus(frames=None):
    """A processor that adds one to the entry's value, and returns it."""
    return class_of(process(4, 5, PLUS, frames))


def give_entry(max_stack=1):
    """A processor that returns the entry itself."""
    return class_of(process(max_stack, 3, GIVE))


def main(max_stack, max_locals, code, count=0, entries="", **other):
    """`process` from the digits of its code, and from those of its declared frames if it has some."""
    frames = Frames(count, bytes.fromhex(entries)) if count else None
    return process(max_stack, max_locals, bytes.fromhex(code), frames, **other)


def own(max_stack, max_locals, code, name=HELP):
    """A static method from long to long, from the digits of its code."""
    return static(max_stack, max_locals, bytes.fromhex(code), name)


COUNTER = (
    "2bb9001601009900122bb9001a0100c00012b60025a700040942212c0332c00012b60025"
    "6137052b1605b80029b9001e02001605b80029b0"
)
SET_REMOVE = "2bb9001601002b0ab80029b9001e02002bb9001601002bb9002101002bb90016010004788004788085b80029b0"
GET_INT = "2bb9001a0100c00012b6002588"
"""Pushes the entry's value as an int."""
CLASSES = {
    "Counter": [main(4, 7, COUNTER, 2, "184004")],
    "Unbox": [main(2, 3, "2bb9001a0100c00012b60025b80029b0")],
    "Shift64": [main(3, 3, "0a104079b80029b0")],
    "Mixed": [main(2, 3, "09b0")],
    "Falls": [main(0, 3, "00")],
    "GiveEntry": [process(1, 3, GIVE)],
    "NestFault": [main(3, 3, "2b100985b80029b9001e020009b8002db80029b0"), own(4, 2, "0a1e6dad")],
    "SetRemove": [main(4, 3, SET_REMOVE)],
    "DivLeast": [main(4, 3, "14003102856db80029b0")],
    "RemLeast": [main(4, 3, "140031028571b80029b0")],
    "ShiftNeg": [main(3, 3, "0a0279b80029b0")],
    "Loose": [main(2, 3, "2c0332b9001a0100b0")],
    "SelfGoto": [main(0, 3, "a70000", 1, "00")],
    "Circle": [main(1, 3, "01b0"), own(2, 2, "1eb80030ad"), own(2, 2, "1eb8002dad", OTHER)],
    "ArrJoin": [main(2, 3, "03039900055704bc0abe85b80029b0", 1, "4701")],
    "ArrVar": [main(2, 4, "0336031503bc0abe85b80029b0")],
    "ArrZero": [main(2, 3, "03bc0bbe85b80029b0")],
    "ArrMost": [main(2, 3, "1233bc0abe85b80029b0")],
    "ArrOver": [main(2, 3, "03bc0a571233bc0abe85b80029b0")],
    "CallArr": [main(2, 3, "0ab8002db80029b0"), own(2, 2, "1233bc0abe85ad")],
    "CallTwice": [main(2, 3, "0ab8002db8002db80029b0"), own(2, 2, "1233bc0abe85ad")],
    "Ratio": [process(4, 5, RATIO, Frames(1, b"\xfc\x00\x15\x04"))],
    "FallIn": [main(2, 5, "094203990005033e01b0", 1, "fc000804")],
    "FallOk": [main(2, 5, "094203990005033e01b0", 1, "08")],
    "Split": [main(3, 3, "0903585701b0")],
    "Bridge": [main(2, 3, "0ab80029b0", descriptor=52), main(3, 3, "2a2b2cb60036b0", flags=0x10C1)],
    "Table": [
        main(2, 3, GET_INT + "aa00000000001e0000000100000002000000170000001c0ab80029b001b009b80029b0", 3, "240401")
    ],
    "TableLong": [
        main(2, 3, GET_INT + "aa00000000001e0000000100000002000000170000001c0ab80029b001b00009b80029b0", 3, "240401")
    ],
    "Look": [
        main(
            2,
            3,
            GET_INT + "ab00000000002200000002fffffffb0000001b00000009000000200ab80029b001b009b80029b0",
            3,
            "280401",
        )
    ],
    "LookLong": [
        main(
            2,
            3,
            GET_INT + "ab00000000002500000002fffffffb0000001b00000009000000200ab80029b000000001b009b80029b0",
            3,
            "280404",
        )
    ],
    "Far": [main(2, 258, "0ac4370100c4160100b80029b0")],
    "Inc": [main(2, 4, "023ec4840003fed41d85b80029b0")],
    "Jump": [main(1, 3, "c80000000501b0", 1, "05")],
}


def named(name):
    """The class with this name."""
    return class_of(*CLASSES[name])


def chain_of(count, calls):
    """Returns `count` static methods, each of which calls the next one `calls` times, and their constants. The method `number` has the index FURTHER
    + 2 + 3 * number."""
    further, methods = [], []
    for number in range(count):
        reference_of = FURTHER + 2 + 3 * number
        further += [utf8(b"m%d" % number), name_and_type(reference_of - 2, 8), methodref(2, reference_of - 1)]
        call = b"\xb8" + u2(reference_of + 3) if number + 1 < count else b""
        methods.append(Method(0x0008, reference_of - 2, 8, 0, 0, calls * call + b"\xb1", b"", None))
    return further, methods


def line_of(count, calls):
    """A class whose `process` calls the first of `count` static methods, each of which calls the next one `calls` times."""
    further, methods = chain_of(count, calls)
    return class_of(process(1, 3, b"\xb8" + u2(FURTHER + 2) + b"\x01\xb0"), *methods, further=further)


def costly_counter():
    """A processor that does what Counter does in 26 instructions at most, but has a bound of 900,000: a branch that is always taken skips calls of
    methods, each of which calls the next one twice."""
    first = FURTHER + 2
    calls = b"".join(b"\xb8" + u2(first + 3 * number) for number in [0, 1, 3, 4, 6, 7, 8, 10, 11, 12, 15, 16, 16])
    skip = b"\x03\x99" + u2(3 + len(calls)) + calls
    frames = Frames(3, bytes([len(skip), 0x17, 0x40, 4]))
    further, methods = chain_of(18, 2)
    return class_of(process(4, 7, skip + bytes.fromhex(COUNTER), frames), *methods, further=further)


def diamond(count):
    """A `process` of `count` branches, each of which may skip a nop."""
    entries = bytes([5] + (count - 1) * [4])
    return class_of(process(1, 3, count * b"\x03\x99\0\4\0" + b"\x01\xb0", Frames(count, entries)))
