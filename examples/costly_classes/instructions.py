"""Classes that repeat instructions, and operands below them."""
from .listed import costly
from .writer import ACONST_NULL, ARETURN, DUP, DUP2, GOTO, IADD, ICONST_0, IFEQ, IINC_0, ILOAD_0, INT, ISTORE_0, LDC_W
from .writer import NEWARRAY_INT, NOP, POP, RETURN, SWAP
from .writer import Body, ClassFile


# Instructions.


@costly("{n} instructions in a row")
def straight_code(n):
    return ClassFile().process(body=Body().put((ICONST_0 + POP) * (n // 2), ACONST_NULL, ARETURN))


@costly("{n} arrays")
def arrays(n):
    return ClassFile().process(body=Body().put((ICONST_0 + NEWARRAY_INT + POP) * n, ACONST_NULL, ARETURN))


@costly("{n} loads of as many constants")
def constant_loads(n):
    row, body = ClassFile(), Body()
    for number in range(n):
        body.with_index(LDC_W, row.pool.integer(number)).put(POP)
    return row.process(body=body.put(ACONST_NULL, ARETURN))


@costly("{n} times goto")
def gotos(n):
    body = Body()
    for number in range(n):
        body.branch(GOTO, number).mark(number).same()
    return ClassFile().process(body=body.put(ACONST_NULL, ARETURN))


@costly("{n} branches that may leave out an instruction")
def diamonds(n):
    body = Body()
    for number in range(n):
        body.put(ICONST_0).branch(IFEQ, number).put(NOP).mark(number).same()
    return ClassFile().process(body=body.put(ACONST_NULL, ARETURN))


# Deep stacks.


def deep_stacks(operands, places, branches):
    """So many operands, and branches from there to these places in turn, each with a full frame."""
    body = Body().put(ICONST_0, ICONST_0, DUP2 * (operands // 2 - 1))
    for number in range(branches):
        body.put(DUP).branch(IFEQ, number % places)
    for place in range(places):
        body.put(RETURN).mark(place).full([], [INT] * operands)
    return ClassFile().hidden(operands + 1, 0, body.put(RETURN))


@costly("{n} branches to one place, over 20,000 operands", most=8_190)
def deep_stacks_to_one_place(n):
    return deep_stacks(20_000, 1, n)


@costly("{n} instructions, over 30,000 operands")
def straight_code_over_deep_stack(n):
    body = Body().put(ICONST_0, ICONST_0, DUP2 * 14_999, (DUP + POP) * (n // 2), RETURN)
    return ClassFile().hidden(30_001, 0, body)


@costly("{n} branches to two places in turn, over 14,000 operands", most=8_190)
def deep_stacks_to_two_places(n):
    return deep_stacks(14_000, 2, n)


@costly("{n} operands, put one by one")
def operands_one_by_one(n):
    return ClassFile().hidden(n, 0, Body().put(ICONST_0 * n, RETURN))


@costly("{n} swaps, over 30,000 operands")
def swaps_over_deep_stack(n):
    return ClassFile().hidden(30_000, 0, Body().put(ICONST_0 * 30_000, SWAP * n, RETURN))


@costly("{n} additions, over 20,000 operands")
def additions_over_deep_stack(n):
    return ClassFile().hidden(20_001, 0, Body().put(ICONST_0 * 20_000, (DUP + IADD) * n, RETURN))


@costly("{n} stores, over 20,000 operands")
def stores_over_deep_stack(n):
    return ClassFile().hidden(20_001, 1, Body().put(ICONST_0 * 20_000, (ICONST_0 + ISTORE_0) * n, RETURN))


@costly("{n} times a load of a local and an addition to it")
def loads_and_increments(n):
    return ClassFile().hidden(n, 1, Body().put(ICONST_0 + ISTORE_0, (ILOAD_0 + IINC_0) * n, RETURN))
