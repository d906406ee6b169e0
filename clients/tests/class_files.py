"""Class files for the tests, written without a compiler."""
import os
import struct

EXAMPLES = os.path.join(os.path.dirname(os.path.abspath(__file__)), "../../examples")
NAME = b"\1\0\3Row"
WITHDRAW_TEXTS = {15: "the amount must be positive", 32: "insufficient funds"}
"""The String constants of examples/Withdraw.class by their indexes."""


def plus():
    """A class that adds one to its entry and returns the sum."""
    with open(os.path.join(EXAMPLES, "Plus.class"), "rb") as file:
        return file.read()


def ratio():
    """A class that divides 1 by its entry, and returns null if the entry is 1."""
    with open(os.path.join(EXAMPLES, "Ratio.class"), "rb") as file:
        return file.read()


def withdraw():
    """A class that withdraws its argument from its entry. It throws exceptions 8 and 9 with the texts of WITHDRAW_TEXTS."""
    with open(os.path.join(EXAMPLES, "Withdraw.class"), "rb") as file:
        return file.read()


def another(number):
    """The class of `plus` under another name, one for each number below 10,000."""
    file = plus()
    if file.count(NAME) != 1:
        raise ValueError("the class has another name")
    return file.replace(NAME, b"\1\0\7Row" + b"%04d" % number)


class Pool:
    """Builds a constant pool. Each method adds a constant and returns its index."""

    def __init__(self):
        self.constants = []

    def add(self, constant):
        self.constants.append(constant)
        return len(self.constants)

    def text(self, word):
        return self.add(struct.pack(">BH", 1, len(word)) + word.encode())

    def type(self, name):
        return self.add(struct.pack(">BH", 7, self.text(name)))

    def method(self, of, name, descriptor):
        both = self.add(struct.pack(">BHH", 12, self.text(name), self.text(descriptor)))
        return self.add(struct.pack(">BHH", 10, of, both))


def with_strings(strings):
    """The constant pool of a class file with these String constants: their bytes by their indexes, which have to leave room for as many more in front
    of them."""
    pool = Pool()
    utf8 = {index: pool.add(struct.pack(">BH", 1, len(text)) + text) for index, text in strings.items()}
    while len(pool.constants) < max(strings):
        index = len(pool.constants) + 1
        pool.add(struct.pack(">BH", 8, utf8[index]) if index in utf8 else struct.pack(">Bi", 3, index))
    return b"\xca\xfe\xba\xbe" + struct.pack(">HHH", 0, 52, len(pool.constants) + 1) + b"".join(pool.constants)


def method(pool, code_name, flags, name, descriptor, slots, code):
    """A method without attributes but its code. `slots` are its max_stack and max_locals."""
    body = struct.pack(">HHI", *slots, len(code)) + code + struct.pack(">HH", 0, 0)
    return struct.pack(">HHHHHI", flags, pool.text(name), pool.text(descriptor), 1, code_name, len(body)) + body


class Processor(Pool):
    """Builds the class file of a processor with static methods from long to long."""

    TYPE = "(Ljavax/cache/processor/MutableEntry;[Ljava/lang/Object;)Ljava/lang/Object;"

    def __init__(self, name):
        super().__init__()
        self.this, self.above, self.code = self.type(name), self.type("java/lang/Object"), self.text("Code")
        self.interface = self.type("javax/cache/processor/EntryProcessor")
        self.methods = []
        constructor = b"\x2a\xb7" + struct.pack(">H", self.method(self.above, "<init>", "()V")) + b"\xb1"
        self.add_method(1, "<init>", "()V", (1, 1), constructor)

    def add_method(self, *words):
        """Adds a method: its flags, name, descriptor, slots and code, as `method` takes them."""
        self.methods.append(method(self, self.code, *words))

    def add_static(self, name, code):
        self.add_method(8, name, "(J)J", (4, 2), code)

    def call(self, name, of=None, descriptor="(J)J"):
        """Returns the code of a call of a static method, of the class itself if no other is named."""
        return b"\xb8" + struct.pack(">H", self.method(of or self.this, name, descriptor))

    def file(self, code):
        """Returns the class file. `code` leaves the long that `process` returns on the stack."""
        boxed = self.call("valueOf", self.type("java/lang/Long"), "(J)Ljava/lang/Long;")
        self.add_method(0x81, "process", self.TYPE, (4, 3), code + boxed + b"\xb0")
        head = b"\xca\xfe\xba\xbe" + struct.pack(">HHH", 0, 52, len(self.constants) + 1) + b"".join(self.constants)
        counts = struct.pack(">HHHHHHH", 0x21, self.this, self.above, 1, self.interface, 0, len(self.methods))
        return head + counts + b"".join(self.methods) + b"\0\0"


def additions(count):
    """A class that adds 1 to 1 as often as this, and takes 2 * count + 3 instructions."""
    return Processor("Additions").file(b"\x0a" + count * b"\x0a\x61")


def heavy_steps(levels):
    """Returns the instructions that a call of a heavy class takes."""
    own = 6
    for _ in range(levels):
        own = 8 * (own + 1) + 2
    return own + 4


def heavy(levels=5, calls=1):
    """A class that takes some 240,000 instructions for each call, an eighth of them for each level less, and returns the same number each time. Each
    of its methods calls the next one eight times, and `process` the first one `calls` times."""
    it = Processor("Heavy")
    it.add_static("m0", b"\x1e\x1e\x61\x1e\x83\xad")
    for n in range(1, levels + 1):
        it.add_static(f"m{n}", b"\x1e" + 8 * it.call(f"m{n - 1}") + b"\xad")
    return it.file(b"\x0a" + calls * it.call(f"m{levels}"))
