"""Classes that repeat the frames of a StackMapTable."""
from .listed import costly
from .writer import ICONST_0, INT, LONG, NOP, POP, RETURN, TOP
from .writer import Body, ClassFile, behind_return


@costly("{n} `same` frames, over 65,535 locals")
def same_frames(n):
    body = Body()
    for _ in range(n):
        body.put(NOP).same()
    return ClassFile().hidden(0, 65_535, body.put(RETURN))


@costly("a full frame of 31,000 ints, and {n} `same` frames")
def same_frames_over_ints(n):
    body = behind_return([INT] * 31_000)
    for _ in range(n):
        body.put(NOP).same()
    return ClassFile().hidden(0, 31_000, body.put(RETURN))


@costly("{n} extended `same` frames, over 65,535 locals")
def same_frames_extended(n):
    body = Body()
    for _ in range(n):
        body.put(NOP).same_extended()
    return ClassFile().hidden(0, 65_535, body.put(RETURN))


@costly("{n} frames with one operand, over 65,535 locals")
def one_item_frames(n):
    body = Body().put(ICONST_0)
    for _ in range(n):
        body.put(NOP).one_item(INT)
    return ClassFile().hidden(1, 65_535, body.put(RETURN))


@costly("{n} extended frames with one operand, over 65,535 locals")
def one_item_frames_extended(n):
    body = Body().put(ICONST_0)
    for _ in range(n):
        body.put(NOP).one_item_extended(INT)
    return ClassFile().hidden(1, 65_535, body.put(RETURN))


@costly("twice {n} instructions with a frame at each, over 65,535 locals")
def frames_at_every_instruction(n):
    body = Body().put(NOP)
    for _ in range(n):
        body.same().put(ICONST_0).one_item(INT).put(POP)
    return ClassFile().hidden(1, 65_535, body.same().put(RETURN))


@costly("{n} frames that chop one local of 31,000 each")
def chops(n):
    body = behind_return([INT] * 31_000)
    for _ in range(n):
        body.put(NOP).chop(1)
    return ClassFile().hidden(0, 31_000, body.put(RETURN))


@costly("{n} times a chop of one and an append of one, over 20,000 locals")
def chops_and_appends(n):
    body = behind_return([INT] * 20_000)
    for _ in range(n):
        body.put(NOP).chop(1).put(NOP).append(TOP)
    return ClassFile().hidden(0, 20_000, body.put(RETURN))


@costly("the same of an int, {n} times, where no frame is reached from another")
def chops_and_appends_of_ints(n):
    body = behind_return([INT] * 20_000)
    for _ in range(n):
        body.put(RETURN).chop(1).put(RETURN).append(INT)
    return ClassFile().hidden(0, 20_000, body.put(RETURN))


@costly("{n} times a chop of three and an append of three, over 20,000 locals")
def chops_and_appends_of_three(n):
    body = behind_return([INT] * 20_000)
    for _ in range(n):
        body.put(NOP).chop(3).put(NOP).append(TOP, TOP, TOP)
    return ClassFile().hidden(0, 20_000, body.put(RETURN))


@costly("the same of ints, {n} times, over 3 locals, where no frame is reached from another")
def chops_and_appends_of_few(n):
    body = behind_return([INT] * 3)
    for _ in range(n):
        body.put(RETURN).chop(3).put(RETURN).append(INT, INT, INT)
    return ClassFile().hidden(0, 3, body.put(RETURN))


@costly("{n} empty full frames, over 65,535 locals")
def full_frames(n):
    body = Body()
    for _ in range(n):
        body.put(NOP).full([])
    return ClassFile().hidden(0, 65_535, body.put(RETURN))


@costly("{n} full frames of 250 ints, over 65,535 locals")
def full_frames_of_ints(n):
    body = behind_return([INT] * 250)
    for _ in range(n):
        body.put(NOP).full([INT] * 250)
    return ClassFile().hidden(0, 65_535, body.put(RETURN))


@costly("a full frame of 32,500 longs, and {n} empty ones")
def full_frames_behind_longs(n):
    body = behind_return([LONG] * 32_500)
    for _ in range(n):
        body.put(NOP).full([])
    return ClassFile().hidden(0, 65_535, body.put(RETURN))


@costly(
    "{n} times a full frame of 100 longs and an empty one, of which none is reached from another, over 65,535 locals"
)
def full_frames_in_turn(n):
    body = Body()
    for _ in range(n):
        body.put(RETURN).full([LONG] * 100).put(RETURN).full([])
    return ClassFile().hidden(0, 65_535, body.put(RETURN))
