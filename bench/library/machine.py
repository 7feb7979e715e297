"""A model of the instructions of RV64IMC that drawn functions have, written from the manual and apart from the program."""

from parcels import expand

WORD = (1 << 64) - 1


def signed(word, bits=64):
    """The low bits of a word as a number with a sign."""
    word &= (1 << bits) - 1
    return word - (word >> (bits - 1) << bits)


def divided(a, b, bits):
    """Quotient and remainder, rounded to zero, of numbers with a sign."""
    if b == 0:
        return -1, a
    quotient = abs(a) // abs(b)
    quotient = -quotient if (a < 0) != (b < 0) else quotient
    return quotient, a - quotient * b


def base_operation(funct3, alternative, a, b, bits):
    """An operation of the base instructions on two words of that many bits."""
    low, count = (1 << bits) - 1, b % bits
    if funct3 == 0:
        return a - b if alternative else a + b
    if funct3 == 1:
        return a << count
    if funct3 == 2:
        return int(signed(a) < signed(b))
    if funct3 == 3:
        return int(a & WORD < b & WORD)
    if funct3 == 4:
        return a ^ b
    if funct3 == 5:
        return signed(a, bits) >> count if alternative else (a & low) >> count
    return a | b if funct3 == 6 else a & b


def product_operation(funct3, a, b, bits):
    """An operation of the multiplications and divisions."""
    low = (1 << bits) - 1
    a_signed, b_signed, a_plain, b_plain = signed(a, bits), signed(b, bits), a & low, b & low
    if funct3 < 4:
        return (a_signed * b_signed, a_signed * b_signed >> 64, a_signed * b_plain >> 64, a_plain * b_plain >> 64)[funct3]
    if funct3 in (4, 6):
        return divided(a_signed, b_signed, bits)[funct3 == 6]
    return (a_plain if funct3 == 7 else low) if b_plain == 0 else (a_plain % b_plain if funct3 == 7 else a_plain // b_plain)


class Machine:
    """Registers, bytes at addresses and a program counter; `touched` are the addresses that were loaded or stored.

    `expand` gives the instruction of four bytes for which two stand.
    """

    def __init__(self, pc, registers, memory, expand=expand):
        self.expand = expand
        self.pc, self.registers, self.memory = pc, [0] + [registers[r] for r in range(1, 32)], dict(memory)
        self.touched = set()

    def word(self, at, size):
        return int.from_bytes(bytes(self.memory[(at + i) & WORD] for i in range(size)), "little")

    def run(self, until, steps):
        """How many steps it takes to that address, at most so many."""
        for taken in range(steps + 1):
            if self.pc == until:
                return taken
            self.step()
        raise ValueError(f"{steps} steps are too few")

    def step(self):
        parcel = self.word(self.pc, 2)
        size = 4 if parcel & 3 == 3 else 2
        w = self.word(self.pc, 4) if size == 4 else self.expand(parcel)
        opcode, rd, funct3, rs1, rs2, funct7 = w & 0x7F, w >> 7 & 31, w >> 12 & 7, w >> 15 & 31, w >> 20 & 31, w >> 25
        a, b, immediate = self.registers[rs1], self.registers[rs2], signed(w >> 20, 12)
        upper = signed(w & 0xFFFFF000, 32)
        after, result = self.pc + size, None
        if opcode in (0x33, 0x3B):
            bits = 64 if opcode == 0x33 else 32
            result = product_operation(funct3, a, b, bits) if funct7 == 1 else base_operation(funct3, funct7 == 32, a, b, bits)
            result = signed(result, bits)
        elif opcode in (0x13, 0x1B):
            bits = 64 if opcode == 0x13 else 32
            is_shift = funct3 in (1, 5)
            result = signed(base_operation(funct3, is_shift and w >> 30 & 1, a, immediate, bits), bits)
        elif opcode == 0x37:
            result = upper
        elif opcode == 0x17:
            result = self.pc + upper
        elif opcode == 0x63:
            offset = signed((w >> 31) << 12 | (w >> 7 & 1) << 11 | (w >> 25 & 0x3F) << 5 | (w >> 8 & 0xF) << 1, 13)
            holds = (a == b, a != b, None, None, signed(a) < signed(b), signed(a) >= signed(b), a < b, a >= b)[funct3]
            after = self.pc + offset if holds else after
        elif opcode == 0x6F:
            offset = (w >> 31) << 20 | (w >> 12 & 0xFF) << 12 | (w >> 20 & 1) << 11 | (w >> 21 & 0x3FF) << 1
            result, after = after, self.pc + signed(offset, 21)
        elif opcode == 0x67:
            result, after = after, (a + immediate) & ~1
        elif opcode == 0x03:
            size = 1 << (funct3 & 3)
            self.touch(a + immediate, size)
            result = self.word(a + immediate, size)
            result = signed(result, 8 * size) if funct3 < 4 else result
        elif opcode == 0x23:
            size, at = 1 << funct3, a + signed(funct7 << 5 | rd, 12)
            self.touch(at, size)
            for i in range(size):
                self.memory[(at + i) & WORD] = b >> 8 * i & 0xFF
        elif opcode != 0x0F:
            raise ValueError(f"no instruction: {w:#x}")
        if rd != 0 and result is not None:
            self.registers[rd] = result & WORD
        self.pc = after & WORD

    def touch(self, at, size):
        """Notes these addresses; a `KeyError` tells the first that has no byte."""
        addresses = [(at + i) & WORD for i in range(size)]
        for address in addresses:
            self.memory[address]
        self.touched.update(addresses)
