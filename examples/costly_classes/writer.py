"""Writes class files piece by piece: their constants, their code with its branches and frames, and the whole."""
import struct

ENTRY_PROCESSOR = "javax/cache/processor/EntryProcessor"
PROCESS = "(Ljavax/cache/processor/MutableEntry;[Ljava/lang/Object;)Ljava/lang/Object;"
PUBLIC, STATIC = 0x0001, 0x0008

ACONST_NULL, ICONST_0, LCONST_0, LDC_W = b"\x01", b"\x03", b"\x09", 0x13
ISTORE_0, LSTORE_0, ASTORE_0, ISTORE = b"\x3b", b"\x3f", b"\x4b", 0x36
ILOAD_0, IINC_0, IADD = b"\x1a", b"\x84\x00\x01", b"\x60"
POP, DUP, DUP2, SWAP, NOP = b"\x57", b"\x59", b"\x5c", b"\x5f", b"\x00"
IFEQ, GOTO, ARETURN, RETURN = 0x99, 0xA7, b"\xb0", b"\xb1"
TABLESWITCH, LOOKUPSWITCH = 0xAA, 0xAB
INVOKESTATIC, INVOKEINTERFACE, NEWARRAY_INT, CHECKCAST = 0xB8, 0xB9, b"\xbc\x0a", 0xC0

# Verification types (JVMS 4.7.4).
TOP, INT, LONG, NULL = b"\0", b"\1", b"\4", b"\5"


def u2(*numbers):
    return struct.pack(f">{len(numbers)}H", *numbers)


def u4(number):
    return struct.pack(">I", number)


class Pool:
    """A constant pool that is put together; equal constants are one, but for fresh ones."""

    def __init__(self):
        self.bytes, self.count, self.known = bytearray(), 1, {}

    def fresh(self, constant):
        self.bytes += constant
        self.count += 1
        return self.count - 1

    def index(self, constant):
        if constant not in self.known:
            self.known[constant] = self.fresh(constant)
        return self.known[constant]

    def utf8(self, text, add=None):
        data = text.encode() if isinstance(text, str) else text
        return (add or self.index)(b"\1" + u2(len(data)) + data)

    def class_of(self, name):
        return self.index(b"\7" + u2(self.utf8(name)))

    def integer(self, number):
        return self.index(b"\3" + u4(number))

    def pair(self, name, descriptor, add=None):
        return (add or self.index)(b"\x0c" + u2(name, descriptor))

    def method(self, class_name, name, descriptor):
        pair = self.pair(self.utf8(name), self.utf8(descriptor))
        return self.index(b"\x0a" + u2(self.class_of(class_name), pair))


class Body:
    """A code that is put together, with the frames that it declares and branches to labels further on."""

    def __init__(self):
        self.code, self.frames, self.count, self.last, self.open = bytearray(), bytearray(), 0, -1, {}

    def put(self, *parts):
        for part in parts:
            self.code += part
        return self

    def with_index(self, opcode, index):
        return self.put(bytes([opcode]), u2(index))

    def leap(self, label, origin, form):
        """An offset from a place to a label further on."""
        self.open.setdefault(label, []).append((len(self.code), origin, form))
        return self.put(bytes(struct.calcsize(form)))

    def branch(self, opcode, label):
        origin = len(self.code)
        return self.put(bytes([opcode])).leap(label, origin, ">h")

    def mark(self, label):
        for place, origin, form in self.open.pop(label, []):
            struct.pack_into(form, self.code, place, len(self.code) - origin)
        return self

    def table_switch(self, default, labels):
        """A tableswitch of keys from 0 on."""
        origin = len(self.code)
        self.put(bytes([TABLESWITCH]), bytes(3 - origin % 4)).leap(default, origin, ">i").put(
            u4(0), u4(len(labels) - 1)
        )
        for label in labels:
            self.leap(label, origin, ">i")
        return self

    def lookup_switch(self, default, labels):
        """A lookupswitch of even keys."""
        origin = len(self.code)
        self.put(bytes([LOOKUPSWITCH]), bytes(3 - origin % 4)).leap(default, origin, ">i").put(u4(len(labels)))
        for number, label in enumerate(labels):
            self.put(u4(2 * number)).leap(label, origin, ">i")
        return self

    def _frame(self, entry_of):
        delta = len(self.code) - self.last - 1
        self.frames += entry_of(delta)
        self.last = len(self.code)
        self.count += 1
        return self

    def same(self):
        return self._frame(lambda d: bytes([d]) if d < 64 else b"\xfb" + u2(d))

    def same_extended(self):
        return self._frame(lambda d: b"\xfb" + u2(d))

    def one_item(self, item):
        return self._frame(lambda d: bytes([64 + d]) + item if d < 64 else b"\xf7" + u2(d) + item)

    def one_item_extended(self, item):
        return self._frame(lambda d: b"\xf7" + u2(d) + item)

    def chop(self, count):
        return self._frame(lambda d: bytes([251 - count]) + u2(d))

    def append(self, *types):
        return self._frame(lambda d: bytes([251 + len(types)]) + u2(d) + b"".join(types))

    def full(self, locals_, stack=()):
        return self._frame(
            lambda d: b"\xff" + u2(d, len(locals_)) + b"".join(locals_) + u2(len(stack)) + b"".join(stack)
        )


def behind_return(types):
    """A code that begins anew behind a return, with locals of these types."""
    return Body().put(RETURN).full(types)


def empty_attributes(name, count):
    return u2(count) + (u2(name) + u4(0)) * count


class ClassFile:
    """A processor: its constructor, a `process` that returns null where nothing else is said, and what a class adds."""

    def __init__(self, name="Row"):
        self.pool, self.name = Pool(), name
        self.this, self.super = self.pool.class_of(name), self.pool.class_of("java/lang/Object")
        self.interfaces = u2(self.pool.class_of(ENTRY_PROCESSOR))
        self.fields, self.attributes, self.methods, self.method_count = u2(0), u2(0), bytearray(), 0
        self.code_name, self.table_name = self.pool.utf8("Code"), self.pool.utf8("StackMapTable")
        init = self.pool.method("java/lang/Object", "<init>", "()V")
        constructor = Body().put(b"\x2a").with_index(0xB7, init).put(RETURN)
        self.method(PUBLIC, "<init>", "()V", 1, 1, constructor)

    def method(self, flags, name, descriptor, max_stack, max_locals, body, of_code=None, of_method=b""):
        """Adds a method. Names and descriptors may be indexes. Attributes of its Code can be given in place of its frames, and some behind its Code."""
        assert not body.open and len(body.code) < 65_536
        name, descriptor = (x if isinstance(x, int) else self.pool.utf8(x) for x in (name, descriptor))
        table = u2(1, self.table_name) + u4(len(body.frames) + 2) + u2(body.count) + body.frames
        inner = of_code if of_code is not None else table if body.count else u2(0)
        code = u2(max_stack, max_locals) + u4(len(body.code)) + body.code + u2(0) + inner
        further = len(of_method) // 6
        self.methods += u2(flags, name, descriptor, 1 + further, self.code_name) + u4(len(code)) + code + of_method
        self.method_count += 1
        return self

    def process(self, max_stack=1, max_locals=3, body=None, **attributes):
        body = body or Body().put(ACONST_NULL, ARETURN)
        return self.method(PUBLIC, "process", PROCESS, max_stack, max_locals, body, **attributes)

    def hidden(self, max_stack, max_locals, body):
        """A method that nothing calls, so that no limit of slots or steps holds for it, behind a `process` that returns null."""
        return self.process().method(STATIC, "hidden", "()V", max_stack, max_locals, body)

    def bytes(self):
        head = b"\xca\xfe\xba\xbe" + u2(0, 52, self.pool.count) + self.pool.bytes + u2(0x21, self.this, self.super)
        interfaces = u2(len(self.interfaces) // 2) + self.interfaces
        return head + interfaces + self.fields + u2(self.method_count) + self.methods + self.attributes
