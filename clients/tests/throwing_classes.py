"""Class files of processors that throw an exception themselves, with a text or without one, written without a compiler."""
import struct

from class_files import Pool, method

EXCEPTIONS = {
    1: "java/lang/ArithmeticException",
    7: "javax/cache/processor/EntryProcessorException",
    8: "java/lang/IllegalArgumentException",
    9: "java/lang/IllegalStateException",
    10: "java/lang/UnsupportedOperationException",
}
"""The classes of the exceptions that a processor may throw itself, by number."""
PROCESS = "(Ljavax/cache/processor/MutableEntry;[Ljava/lang/Object;)Ljava/lang/Object;"


class Constants(Pool):
    """A constant pool for such a class."""

    def string(self, modified):
        """Adds a String with this text in modified UTF-8 (JVMS 4.4.7)."""
        return self.add(b"\x08" + struct.pack(">H", self.add(struct.pack(">BH", 1, len(modified)) + modified)))

    def setter(self):
        """Returns the code of `entry.setValue(1L)`."""
        boxed = self.method(self.type("java/lang/Long"), "valueOf", "(J)Ljava/lang/Long;")
        both = struct.pack(">BHH", 12, self.text("setValue"), self.text("(Ljava/lang/Object;)V"))
        entry = self.type("javax/cache/processor/MutableEntry")
        call = self.add(struct.pack(">BHH", 11, entry, self.add(both)))
        return b"\x2b\x0a" + struct.pack(">BH", 0xB8, boxed) + struct.pack(">BHBB", 0xB9, call, 2, 0)

    def throw(self, number, modified):
        """Returns the code that throws the exception with this number: `ldc` for a text with a small index, else `ldc_w`."""
        exception = self.type(EXCEPTIONS[number])
        load, descriptor = b"", "()V"
        if modified is not None:
            index, descriptor = self.string(modified), "(Ljava/lang/String;)V"
            load = struct.pack(">BB", 0x12, index) if index < 256 else struct.pack(">BH", 0x13, index)
        made = struct.pack(">BHB", 0xBB, exception, 0x59) + load
        return made + struct.pack(">BHB", 0xB7, self.method(exception, "<init>", descriptor), 0xBF)


def throwing(number, modified=None, sets=False, fillers=0):
    """A class that throws the exception with this number. `modified` is its text in modified UTF-8, or None. With `sets` it sets its entry to 1
    before that. `fillers` is a number of constants ahead of all others that nothing refers to."""
    pool = Constants()
    for filler in range(fillers):
        pool.text(f"filler {filler}")
    this, above = pool.type("throws/Thrower"), pool.type("java/lang/Object")
    processor, code = pool.type("javax/cache/processor/EntryProcessor"), pool.text("Code")
    constructor = b"\x2a" + struct.pack(">BH", 0xB7, pool.method(above, "<init>", "()V")) + b"\xb1"
    body = (pool.setter() if sets else b"") + pool.throw(number, modified)
    methods = method(pool, code, 1, "<init>", "()V", (1, 1), constructor)
    methods += method(pool, code, 0x81, "process", PROCESS, (3, 3), body)
    head = b"\xca\xfe\xba\xbe" + struct.pack(">HHH", 0, 52, len(pool.constants) + 1) + b"".join(pool.constants)
    return head + struct.pack(">HHHHHHH", 0x21, this, above, 1, processor, 0, 2) + methods + b"\0\0"
