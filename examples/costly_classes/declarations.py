"""Classes that repeat what a class declares or names: constants, descriptors, casts, members and attributes."""
from .listed import costly
from .writer import ACONST_NULL, ARETURN, CHECKCAST, DUP, ENTRY_PROCESSOR, ICONST_0, INVOKEINTERFACE, INVOKESTATIC, NOP
from .writer import POP, RETURN, STATIC
from .writer import Body, ClassFile, behind_return, empty_attributes, u2


# Constants.


@costly("{n} empty Utf8 constants")
def utf8_constants(n):
    row = ClassFile().process()
    for _ in range(n):
        row.pool.utf8("", row.pool.fresh)
    return row


@costly("a Utf8 constant of {n} bytes")
def long_utf8_constant(n):
    row = ClassFile().process()
    row.pool.utf8("a" * n)
    return row


@costly("{n} Class constants")
def class_constants(n):
    row = ClassFile().process()
    for _ in range(n):
        row.pool.fresh(b"\7" + u2(1))
    return row


@costly("{n} Methodref constants")
def method_constants(n):
    row = ClassFile().process()
    pair = row.pool.pair(row.pool.utf8("<init>"), row.pool.utf8("()V"))
    for _ in range(n):
        row.pool.fresh(b"\x0a" + u2(row.this, pair))
    return row


# Names and descriptors.


def named_alike(row, name, methods):
    """So many methods of one name behind `process`, of which the last has no parameters."""
    for number in range(methods - 1):
        kinds = "".join("IJ"[number >> bit & 1] for bit in range(8))
        row.method(STATIC, name, f"({kinds})V", 0, 16, Body().put(RETURN))
    return row.method(STATIC, name, "()V", 0, 0, Body().put(RETURN))


def called_alike(row, name, of_calls):
    """240 methods of one name, and 1,000 calls of the last, each by constants of its own, which may have another constant for the name."""
    body = Body()
    for _ in range(1000):
        pair = row.pool.pair(of_calls, row.pool.utf8("()V"), row.pool.fresh)
        body.with_index(INVOKESTATIC, row.pool.fresh(b"\x0a" + u2(row.this, pair)))
    return named_alike(row.process(body=body.put(ACONST_NULL, ARETURN)), name, 240)


@costly("240 methods with one name of {n} bytes, and 1,000 calls by as many constants")
def long_method_name(n):
    row = ClassFile()
    name = row.pool.utf8("a" * n)
    return called_alike(row, name, name)


@costly("the same, where the calls have a copy of the name, of {n} bytes")
def copied_method_name(n):
    row = ClassFile()
    return called_alike(row, row.pool.utf8("a" * n), row.pool.utf8("a" * n, row.pool.fresh))


def called_often(row, name, of_calls):
    """250 methods of one name, and 9,000 calls of the last by one constant."""
    called = row.pool.fresh(b"\x0a" + u2(row.this, row.pool.pair(of_calls, row.pool.utf8("()V"))))
    body = Body()
    for _ in range(9000):
        body.with_index(INVOKESTATIC, called)
    return named_alike(row.process(body=body.put(ACONST_NULL, ARETURN)), name, 250)


@costly("250 methods with one name of {n} bytes, and 9,000 calls by one constant")
def often_called_name(n):
    row = ClassFile()
    name = row.pool.utf8("a" * n)
    return called_often(row, name, name)


@costly("the same, where the calls have a copy of the name, of {n} bytes")
def often_called_copy(n):
    row = ClassFile()
    return called_often(row, row.pool.utf8("a" * n), row.pool.utf8("a" * n, row.pool.fresh))


@costly("{n} calls by a descriptor of 255 parameters, of 9,700 bytes")
def long_descriptor(n):
    row = ClassFile()
    descriptor = "(" + f"L{ENTRY_PROCESSOR};" * 255 + ")V"
    called, body = row.pool.method(row.name, "help", descriptor), Body()
    for _ in range(n):
        body.put(ACONST_NULL * 255).with_index(INVOKESTATIC, called)
    row.process(255, 3, body.put(ACONST_NULL, ARETURN))
    return row.method(STATIC, "help", descriptor, 0, 255, Body().put(RETURN))


@costly("8,000 calls by a descriptor with the class's own name of {n} bytes")
def long_class_name(n):
    row = ClassFile("a" * n)
    descriptor = f"(L{row.name};)V"
    called, body = row.pool.method(row.name, "help", descriptor), Body()
    for _ in range(8000):
        body.put(ACONST_NULL).with_index(INVOKESTATIC, called)
    row.process(body=body.put(ACONST_NULL, ARETURN))
    return row.method(STATIC, "help", descriptor, 0, 1, Body().put(RETURN))


@costly(
    "{n} calls of an interface's method that isn't known, by a descriptor of 32,000 bytes", "refused 24 UnknownMember"
)
def long_interface_descriptor(n):
    row = ClassFile()
    pair = row.pool.pair(row.pool.utf8("x"), row.pool.utf8(f"(L{'a' * 32_000};)V"))
    called = row.pool.index(b"\x0b" + u2(row.this, pair))
    body = Body()
    for _ in range(n):
        body.put(DUP, DUP).with_index(INVOKEINTERFACE, called).put(b"\2\0")
    return row.hidden(3, 0, Body().put(ACONST_NULL, body.code, RETURN))


@costly("{n} library calls")
def library_calls(n):
    row = ClassFile()
    called, body = row.pool.method("java/lang/Math", "min", "(II)I"), Body().put(ICONST_0)
    for _ in range(n):
        body.put(DUP).with_index(INVOKESTATIC, called)
    return row.process(2, 3, body.put(POP, ACONST_NULL, ARETURN))


# Casts.


def casts(row, to, count):
    body = Body().put(ACONST_NULL)
    for _ in range(count):
        body.with_index(CHECKCAST, to)
    return row.process(body=body.put(ARETURN))


@costly("{n} casts")
def casts_to_long(n):
    row = ClassFile()
    return casts(row, row.pool.class_of("java/lang/Long"), n)


@costly("10,700 casts to the class itself, by a copy of its name of {n} bytes")
def casts_to_long_name(n):
    row = ClassFile("a" * n)
    copy = row.pool.utf8(row.name, row.pool.fresh)
    return casts(row, row.pool.fresh(b"\7" + u2(copy)), 10_700)


@costly("frames with {n} items of the class itself, by a copy of its name of 16,000 bytes")
def frames_of_long_name(n):
    row = ClassFile("a" * 16_000)
    copy = row.pool.utf8(row.name, row.pool.fresh)
    own = b"\7" + u2(row.pool.fresh(b"\7" + u2(copy)))
    return row.hidden(0, n, behind_return([own] * n).put(RETURN))


# Members and attributes.


@costly("{n} methods of 65,535 locals and one instruction", "refused 1 TooLarge")
def many_methods(n):
    row = ClassFile().process()
    for number in range(n):
        row.method(STATIC, f"m{number}", "()V", 0, 65_535, Body().put(RETURN))
    return row


@costly("254 methods of 65,535 locals, with {n} `same` frames each")
def most_methods(n):
    row = ClassFile().process()
    body = Body()
    for _ in range(n):
        body.put(NOP).same()
    body.put(RETURN)
    for number in range(254):
        row.method(STATIC, f"m{number}", "()V", 0, 65_535, body)
    return row


@costly("{n} fields")
def fields(n):
    row = ClassFile().process()
    row.fields = u2(n) + u2(0, row.pool.utf8("f"), row.pool.utf8("I"), 0) * n
    return row


@costly("{n} interfaces, of which the last is EntryProcessor")
def interfaces(n):
    row = ClassFile().process()
    row.interfaces = u2(row.super) * (n - 1) + row.interfaces
    return row


@costly("{n} attributes of the class")
def class_attributes(n):
    row = ClassFile().process()
    row.attributes = empty_attributes(row.pool.utf8("Cost"), n)
    return row


@costly("{n} attributes of a method, beside its Code")
def method_attributes(n):
    row = ClassFile()
    return row.process(of_method=empty_attributes(row.pool.utf8("Cost"), n)[2:])


@costly("{n} attributes of a Code")
def code_attributes(n):
    row = ClassFile()
    return row.process(of_code=empty_attributes(row.pool.utf8("Cost"), n))
