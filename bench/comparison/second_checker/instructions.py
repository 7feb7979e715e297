"""Instructions of four bytes, decoded from their numbers."""

from typing import NamedTuple

from .operations import MASK, signed


class Instruction(NamedTuple):
    """What an instruction is: its kind, the operation's name, registers, and its immediate.

    The kinds are op, opimm, lui, auipc, load, store, jal, jalr, branch, fence and environment. Of
    a load or a store the operation is how many bytes it moves, of a load negative where it extends
    their sign. Registers that the instruction's form hasn't are None.
    """

    kind: str
    operation: object = None
    target: int | None = None
    first: int | None = None
    second: int | None = None
    immediate: int = 0

    @property
    def registers(self):
        """The registers that it names, but x0, rising, each once."""
        return sorted({self.target, self.first, self.second} - {None, 0})


BRANCHES = {0: "eq", 1: "ne", 4: "lt", 5: "ge", 6: "ltu", 7: "geu"}
LOADS = {0: -1, 1: -2, 2: -4, 3: 8, 4: 1, 5: 2, 6: 4}
STORES = {0: 1, 1: 2, 2: 4, 3: 8}
WITH_IMMEDIATE = {0: "add", 2: "slt", 3: "sltu", 4: "xor", 6: "or", 7: "and"}
OPERATIONS = {
    0b0000000: ["add", "sll", "slt", "sltu", "xor", "srl", "or", "and"],
    0b0100000: ["sub", None, None, None, None, "sra", None, None],
    0b0000001: ["mul", "mulh", "mulhsu", "mulhu", "div", "divu", "rem", "remu"],
}
OPERATIONS_OF_LOW_WORDS = {
    0b0000000: ["addw", "sllw", None, None, None, "srlw", None, None],
    0b0100000: ["subw", None, None, None, None, "sraw", None, None],
    0b0000001: ["mulw", None, None, None, "divw", "divuw", "remw", "remuw"],
}
ENVIRONMENT = (0x00000073, 0x00100073)


def field(number, high, low):
    """The bits from low to high of a number."""
    return number >> low & (1 << (high - low + 1)) - 1


def branch_offset(number):
    """The immediate of a branch."""
    return signed(field(number, 31, 31) << 12 | field(number, 7, 7) << 11
                  | field(number, 30, 25) << 5 | field(number, 11, 8) << 1, 13)


def jump_offset(number):
    """The immediate of JAL."""
    return signed(field(number, 31, 31) << 20 | field(number, 19, 12) << 12
                  | field(number, 20, 20) << 11 | field(number, 30, 21) << 1, 21)


def with_immediate(number, target, first):
    """An instruction with the opcode OP-IMM."""
    function = field(number, 14, 12)
    if function in WITH_IMMEDIATE:
        immediate = signed(field(number, 31, 20), 12)
        return Instruction("opimm", WITH_IMMEDIATE[function], target, first,
                           immediate=immediate & MASK)
    shifts = {(1, 0b000000): "sll", (5, 0b000000): "srl", (5, 0b010000): "sra"}
    operation = shifts.get((function, field(number, 31, 26)))
    if operation is None:
        return None
    return Instruction("opimm", operation, target, first, immediate=field(number, 25, 20))


def with_immediate_of_low_words(number, target, first):
    """An instruction with the opcode OP-IMM-32."""
    function = field(number, 14, 12)
    if function == 0:
        immediate = signed(field(number, 31, 20), 12)
        return Instruction("opimm", "addw", target, first, immediate=immediate & MASK)
    shifts = {(1, 0b0000000): "sllw", (5, 0b0000000): "srlw", (5, 0b0100000): "sraw"}
    operation = shifts.get((function, field(number, 31, 25)))
    if operation is None:
        return None
    return Instruction("opimm", operation, target, first, immediate=field(number, 24, 20))


def decoded_word(number):
    """The instruction of four bytes that has this number, or None."""
    opcode, function = field(number, 6, 0), field(number, 14, 12)
    target, first, second = field(number, 11, 7), field(number, 19, 15), field(number, 24, 20)
    upper = signed(number & 0xFFFFF000, 32) & MASK
    lower = signed(field(number, 31, 20), 12) & MASK
    if opcode == 0b0110111:
        return Instruction("lui", target=target, immediate=upper)
    if opcode == 0b0010111:
        return Instruction("auipc", target=target, immediate=upper)
    if opcode == 0b1101111:
        return Instruction("jal", target=target, immediate=jump_offset(number) & MASK)
    if opcode == 0b1100111 and function == 0:
        return Instruction("jalr", None, target, first, immediate=lower)
    if opcode == 0b1100011 and function in BRANCHES:
        return Instruction("branch", BRANCHES[function], None, first, second,
                           branch_offset(number) & MASK)
    if opcode == 0b0000011 and function in LOADS:
        return Instruction("load", LOADS[function], target, first, immediate=lower)
    if opcode == 0b0100011 and function in STORES:
        immediate = signed(field(number, 31, 25) << 5 | target, 12) & MASK
        return Instruction("store", STORES[function], None, first, second, immediate)
    if opcode == 0b0010011:
        return with_immediate(number, target, first)
    if opcode == 0b0011011:
        return with_immediate_of_low_words(number, target, first)
    tables = {0b0110011: OPERATIONS, 0b0111011: OPERATIONS_OF_LOW_WORDS}
    if opcode in tables:
        operations = tables[opcode].get(field(number, 31, 25))
        if operations is None or operations[function] is None:
            return None
        return Instruction("op", operations[function], target, first, second)
    if opcode == 0b0001111 and function == 0:
        return Instruction("fence")
    if number in ENVIRONMENT:
        return Instruction("environment")
    return None
