"""Instructions of two bytes, by chapter 16 of the manual: each stands for one of four bytes."""

from .instructions import Instruction, field
from .operations import MASK, signed


def gathered(number, *places):
    """The number whose bits are gathered from these fields of an instruction: of each the high
    bit and the low bit in the instruction, and where the low bit goes to."""
    return sum(field(number, high, low) << to for high, low, to in places)


def small(number):
    """The immediate of six bits of most instructions, its sign extended."""
    return signed(gathered(number, (12, 12, 5), (6, 2, 0)), 6) & MASK


def amount(number):
    """The amount of a shift."""
    return gathered(number, (12, 12, 5), (6, 2, 0))


def first_quadrant(number):
    """Those whose low two bits are 00."""
    function = field(number, 15, 13)
    base, other = 8 + field(number, 9, 7), 8 + field(number, 4, 2)
    word = gathered(number, (12, 10, 3), (6, 6, 2), (5, 5, 6))
    double = gathered(number, (12, 10, 3), (6, 5, 6))
    if function == 0b000:
        immediate = gathered(number, (12, 11, 4), (10, 7, 6), (6, 6, 2), (5, 5, 3))
        return Instruction("opimm", "add", other, 2, immediate=immediate) if immediate else None
    if function == 0b010:
        return Instruction("load", -4, other, base, immediate=word)
    if function == 0b011:
        return Instruction("load", 8, other, base, immediate=double)
    if function == 0b110:
        return Instruction("store", 4, None, base, other, word)
    if function == 0b111:
        return Instruction("store", 8, None, base, other, double)
    return None


def upper_or_stack(number):
    """C.LUI, and C.ADDI16SP, which has its place for register 2."""
    target = field(number, 11, 7)
    if target == 2:
        immediate = signed(gathered(number, (12, 12, 9), (6, 6, 4), (5, 5, 6), (4, 3, 7),
                                    (2, 2, 5)), 10) & MASK
        return Instruction("opimm", "add", 2, 2, immediate=immediate) if immediate else None
    immediate = small(number) << 12 & MASK
    return Instruction("lui", target=target, immediate=immediate) if immediate else None


def arithmetic(number):
    """Those of the second quadrant that compute in a register from 8 to 15."""
    target, other = 8 + field(number, 9, 7), 8 + field(number, 4, 2)
    function = field(number, 11, 10)
    if function == 0b11:
        names = [["sub", "xor", "or", "and"], ["subw", "addw", None, None]]
        name = names[field(number, 12, 12)][field(number, 6, 5)]
        return Instruction("op", name, target, target, other) if name else None
    if function == 0b10:
        return Instruction("opimm", "and", target, target, immediate=small(number))
    name = ("srl", "sra")[function]
    return Instruction("opimm", name, target, target, immediate=amount(number))


def second_quadrant(number):
    """Those whose low two bits are 01."""
    function = field(number, 15, 13)
    target = field(number, 11, 7)
    if function == 0b000:
        return Instruction("opimm", "add", target, target, immediate=small(number))
    if function == 0b001:
        if target == 0:
            return None
        return Instruction("opimm", "addw", target, target, immediate=small(number))
    if function == 0b010:
        return Instruction("opimm", "add", target, 0, immediate=small(number))
    if function == 0b011:
        return upper_or_stack(number)
    if function == 0b100:
        return arithmetic(number)
    if function == 0b101:
        offset = signed(gathered(number, (12, 12, 11), (11, 11, 4), (10, 9, 8), (8, 8, 10),
                                 (7, 7, 6), (6, 6, 7), (5, 3, 1), (2, 2, 5)), 12)
        return Instruction("jal", target=0, immediate=offset & MASK)
    offset = signed(gathered(number, (12, 12, 8), (11, 10, 3), (6, 5, 6), (4, 3, 1),
                             (2, 2, 5)), 9)
    name = "eq" if function == 0b110 else "ne"
    return Instruction("branch", name, None, 8 + field(number, 9, 7), 0, offset & MASK)


def jump_or_add(number):
    """C.JR, C.MV, C.EBREAK, C.JALR and C.ADD."""
    target, other = field(number, 11, 7), field(number, 6, 2)
    if field(number, 12, 12) == 0:
        if other:
            return Instruction("op", "add", target, 0, other)
        return Instruction("jalr", None, 0, target) if target else None
    if other:
        return Instruction("op", "add", target, target, other)
    return Instruction("jalr", None, 1, target) if target else Instruction("environment")


def third_quadrant(number):
    """Those whose low two bits are 10."""
    function = field(number, 15, 13)
    target, other = field(number, 11, 7), field(number, 6, 2)
    if function == 0b000:
        return Instruction("opimm", "sll", target, target, immediate=amount(number))
    if function == 0b010 and target:
        immediate = gathered(number, (12, 12, 5), (6, 4, 2), (3, 2, 6))
        return Instruction("load", -4, target, 2, immediate=immediate)
    if function == 0b011 and target:
        immediate = gathered(number, (12, 12, 5), (6, 5, 3), (4, 2, 6))
        return Instruction("load", 8, target, 2, immediate=immediate)
    if function == 0b100:
        return jump_or_add(number)
    if function == 0b110:
        immediate = gathered(number, (12, 9, 2), (8, 7, 6))
        return Instruction("store", 4, None, 2, other, immediate)
    if function == 0b111:
        immediate = gathered(number, (12, 10, 3), (9, 7, 6))
        return Instruction("store", 8, None, 2, other, immediate)
    return None


QUADRANTS = {0b00: first_quadrant, 0b01: second_quadrant, 0b10: third_quadrant}


def decoded_parcel(number):
    """The instruction of two bytes that has this number, or None."""
    return QUADRANTS[number & 3](number)
