"""Classes that repeat branches, switches, and calls of their own methods."""
from .listed import costly
from .writer import ACONST_NULL, ARETURN, ASTORE_0, DUP, DUP2, ICONST_0, IFEQ, INT, INVOKESTATIC, ISTORE, ISTORE_0
from .writer import LCONST_0, LONG, LSTORE_0, NOP, NULL, RETURN, STATIC, TOP
from .writer import Body, ClassFile, behind_return, u2


# Branches over many locals.


def branch_to_next(body, count):
    for number in range(count):
        body.put(ICONST_0).branch(IFEQ, number).mark(number).same()
    return body.put(RETURN)


@costly("{n} branches that are reached, over 20,000 locals")
def branches(n):
    return ClassFile().hidden(1, 20_000, branch_to_next(behind_return([INT] * 20_000), n))


@costly("{n} branches that are reached, over 20,000 locals", most=4_000)
def fewer_branches(n):
    return ClassFile().hidden(1, 20_000, branch_to_next(behind_return([INT] * 20_000), n))


def branches_to_rows(here, there, places=1, count=8_000, row=None):
    """Branches from locals of some types to places, in turn, that declare a row of other ones."""
    body = behind_return(here)
    for number in range(count):
        body.put(ICONST_0).branch(IFEQ, number % places)
    for place in range(places):
        body.put(RETURN).mark(place).full(there)
    slots = sum(2 if t == LONG else 1 for t in here)
    return (row or ClassFile()).hidden(1, slots, body.put(RETURN))


@costly("8,000 branches over {n} longs to a place that declares as many anew", most=32_000)
def branches_to_longs(n):
    return branches_to_rows([LONG] * n, [LONG] * n)


@costly("8,000 branches to two places in turn, over {n} longs, which each declares anew", most=32_000)
def branches_to_longs_in_turn(n):
    return branches_to_rows([LONG] * n, [LONG] * n, 2)


@costly("8,000 branches over {n} longs to a place that declares another type for every local", most=32_000)
def branches_to_tops(n):
    return branches_to_rows([LONG] * n, [TOP] * (2 * n))


@costly("8,000 branches over {n} nulls to a place that declares arrays", most=32_000)
def branches_to_references(n):
    row = ClassFile()
    ints = b"\7" + u2(row.pool.class_of("[I"))
    return branches_to_rows([NULL] * n, [ints] * n, row=row)


@costly("{n} stores, each of another type than before, over 65,535 locals")
def stores(n):
    kinds = [ICONST_0 + ISTORE_0, ACONST_NULL + ASTORE_0, LCONST_0 + LSTORE_0]
    body = Body()
    for number in range(n):
        body.put(kinds[number % 3])
    return ClassFile().hidden(2, 65_535, body.put(RETURN))


@costly("{n} stores to 256 locals in turn, each of another type than before, over 65,535 locals")
def stores_to_many(n):
    body = Body()
    for number in range(n):
        push, store = (ICONST_0, ISTORE) if number // 256 % 2 else (ACONST_NULL, 0x3A)
        body.put(push, bytes([store, number % 256]))
    return ClassFile().hidden(1, 65_535, body.put(RETURN))


def stores_and_branches(body, count):
    """Stores of another type each, and a branch behind each, to places not too far off."""
    for number in range(count):
        push, store = (ICONST_0, ISTORE_0) if number % 2 else (ACONST_NULL, ASTORE_0)
        body.put(push, store, ICONST_0).branch(IFEQ, number // 5_000)
        if number % 5_000 == 4_999:
            body.mark(number // 5_000).same()
    if count % 5_000:
        body.mark(count // 5_000).same()
    return body.put(RETURN)


@costly("{n} stores and branches in turn, over 65,535 locals")
def stores_between_branches(n):
    return ClassFile().hidden(1, 65_535, stores_and_branches(Body(), n))


@costly("{n} stores and branches in turn, over 20,000 ints")
def stores_between_branches_over_ints(n):
    body = stores_and_branches(behind_return([TOP] + [INT] * 19_999), n)
    return ClassFile().hidden(1, 20_000, body)


# Switches.


@costly("a tableswitch of {n} keys to one place")
def table_to_one_place(n):
    body = Body().put(ICONST_0).table_switch(0, [0] * n).mark(0).same()
    return ClassFile().hidden(1, 0, body.put(RETURN))


@costly("a tableswitch of {n} keys to as many places")
def table_to_many_places(n):
    body = Body().put(ICONST_0).table_switch(0, range(n))
    for number in range(n):
        body.mark(number).same().put(NOP)
    return ClassFile().hidden(1, 0, body.put(RETURN))


@costly("a tableswitch of {n} keys to two places in turn, over 20,000 locals")
def table_over_many_locals(n):
    body = behind_return([INT] * 20_000).put(ICONST_0).table_switch(0, [number % 2 for number in range(n)])
    return ClassFile().hidden(1, 20_000, body.mark(0).same().put(RETURN).mark(1).same().put(RETURN))


def table_over_operands(operands, places, keys):
    """A tableswitch over so many operands to these places in turn, each with a full frame."""
    body = Body().put(ICONST_0, ICONST_0, DUP2 * (operands // 2 - 1), DUP)
    body.table_switch(0, [number % places for number in range(keys)])
    for place in range(places):
        body.mark(place).full([], [INT] * operands).put(RETURN)
    return ClassFile().hidden(operands + 1, 0, body)


@costly("a tableswitch of {n} keys to one place, over 20,000 operands")
def table_over_operands_to_one_place(n):
    return table_over_operands(20_000, 1, n)


@costly("a tableswitch of {n} keys to two places in turn, over 12,800 operands")
def table_over_operands_to_two_places(n):
    return table_over_operands(12_800, 2, n)


@costly("{n} tableswitches of one key to one place")
def many_tables(n):
    body = Body()
    for number in range(n):
        body.put(ICONST_0).table_switch(number, ["end"]).mark(number).same()
    return ClassFile().hidden(1, 0, body.put(NOP).mark("end").same().put(RETURN))


@costly("a lookupswitch of {n} keys to one place, over 65,535 locals")
def lookup_of_many_keys(n):
    body = Body().put(ICONST_0).lookup_switch(0, [0] * n).mark(0).same()
    return ClassFile().hidden(1, 65_535, body.put(RETURN))


@costly("{n} lookupswitches without a key")
def many_empty_lookups(n):
    body = Body()
    for number in range(n):
        body.put(ICONST_0).lookup_switch(number, []).mark(number).same()
    return ClassFile().hidden(1, 0, body.put(RETURN))


# Own calls.


def chain(row, methods, calls_of):
    """Static methods, each with calls of the methods that have these numbers, and a method behind them."""
    references = [row.pool.method(row.name, f"m{number}", "()V") for number in range(methods)]
    for number in range(methods):
        body = Body()
        for called in calls_of(number):
            body.with_index(INVOKESTATIC, references[called])
        row.method(STATIC, f"m{number}", "()V", 0, 0, body.put(RETURN))
    return references[0]


def calling(row, reference):
    return row.process(body=Body().with_index(INVOKESTATIC, reference).put(ACONST_NULL, ARETURN))


@costly("a chain of 63 own calls, as deep as may be, in methods with {n} instructions more")
def deepest_chain(n):
    row = ClassFile()
    references = [row.pool.method(row.name, f"m{number}", "()V") for number in range(63)]
    for number, _ in enumerate(references):
        body = Body().put(NOP * n)
        if number < 62:
            body.with_index(INVOKESTATIC, references[number + 1])
        row.method(STATIC, f"m{number}", "()V", 0, 0, body.put(RETURN))
    return calling(row, references[0])


@costly("a chain of 254 methods that nothing calls, each with {n} calls of the next")
def long_chain(n):
    row = ClassFile().process()
    chain(row, 254, lambda number: [number + 1] * n if number < 253 else [])
    return row


@costly("the same chain, {n} calls each, called by `process`", "refused 2")
def long_chain_called(n):
    row = ClassFile()
    first = chain(row, 254, lambda number: [number + 1] * n if number < 253 else [])
    return calling(row, first)


@costly("254 methods that nothing calls, each with calls of up to {n} of those behind it")
def crossed_calls(n):
    row = ClassFile().process()
    chain(row, 254, lambda number: range(number + 1, min(number + 1 + n, 254)))
    return row


@costly("the same backward: up to {n} of those before it")
def crossed_calls_backward(n):
    row = ClassFile().process()
    chain(row, 254, lambda number: range(max(number - n, 0), number))
    return row
