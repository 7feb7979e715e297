"""Functions of RV64IMC code that are drawn from a number: loops in loops, branches that join again, and loads and stores in one region."""
import random

from elf_files import BASE
from instructions import RETURN, arithmetic, branch, immediate, jump, load, store, upper
from parcels import SHORT

REACH = 64
WORD = (1 << 64) - 1
FENCE = 0x0000000F
BRANCHES = (0, 1, 4, 5, 6, 7)
LOADS = ((0, 1), (1, 2), (2, 4), (3, 8), (4, 1), (5, 2), (6, 4))
STORES = ((0, 1), (1, 2), (2, 4), (3, 8))
# funct7 and funct3 of the operations on two registers, of 64 bits and of 32
OPERATIONS = [(0, f) for f in range(8)] + [(32, 0), (32, 5)] + [(1, f) for f in range(8)]
WORD_OPERATIONS = [(0, 0), (0, 1), (0, 5), (32, 0), (32, 5), (1, 0), (1, 4), (1, 5), (1, 6), (1, 7)]
# funct3 of those on a register and an immediate; of shifts the bits above the count, and how many counts there are
IMMEDIATES = (0, 2, 3, 4, 6, 7)
SHIFTS = ((1, 0), (5, 0), (5, 0x400))
# The most turns of a loop, by how many loops it stands in. In binary they are ones alone.
TURNS = (15, 7, 7, 3)
# The bit in which the opcodes of 32-bit operations differ from those of 64-bit ones
IN_WORDS = 0x08
EDGES = (0, 1, 2, 3, 7, 8, 31, 32, 63, 64, 0x7FFFFFFF, 0x80000000, 0xFFFFFFFF, 0x7FFFFFFFFFFFFFFF, 1 << 63, WORD - 1, WORD)


class Function:
    """The code of the function of a number.

    It is entered at `entry`, uses the registers `used` and, where it `has_memory`, the bytes at most REACH below the address in the
    register `base` and less than REACH above it. It writes neither that register nor, while it runs, the one that the return address is in.
    """

    def __init__(self, number):
        self.random = random.Random(number)
        self.parts, self.labels, self.used = [], 0, {1}
        self.has_memory = False
        self.draw_registers()
        self.size = 1 + int(self.random.random() ** 3 * 180)
        self.end = self.label()
        self.draw()
        self.shorten()
        self.place()

    def draw_registers(self):
        registers = list(range(2, 32))
        self.random.shuffle(registers)
        self.base, self.saved, *rest = registers
        self.counters, rest = rest[: len(TURNS)], rest[len(TURNS) :]
        self.general = rest[: 2 + self.random.randrange(len(rest) - 2)]
        self.is_saving = self.random.random() < 0.25
        self.may_access = self.random.random() < 0.75

    def draw(self):
        begins_behind = self.random.random() < 0.2
        first = self.here()
        if self.is_saving:
            self.put(immediate(0, self.saved, 1, 0), self.saved)
            self.general.append(1)
        self.block(self.size, 0, [])
        self.mark(self.end)
        if self.is_saving:
            self.put(immediate(0, 1, self.saved, 0))
        self.put(RETURN)
        start = first
        if begins_behind:
            start = self.here()
            self.go(first)
        self.start = start

    def shorten(self):
        """Which parts have two bytes, of those that can: all, some or none."""
        share = self.random.choice((0, 0.5, 1))
        self.sizes = [0 if isinstance(part, int) else 4 for part in self.parts]
        places = self.places()
        # An offset that fits while all instructions have four bytes still fits when some have two.
        for i, part in enumerate(self.parts):
            if not isinstance(part, int) and self.random.random() < share and self.word(part, places, places[i]) in SHORT:
                self.sizes[i] = 2

    def places(self):
        """Where each part stands, by its place in the list, and each label by its number as a string."""
        at, places = 0, {}
        for i, part in enumerate(self.parts):
            places[str(part) if isinstance(part, int) else i] = at
            at += self.sizes[i]
        return places

    def word(self, part, places, at):
        make, target = part
        return make(places[str(target)] - at) if target is not None else make

    def place(self):
        """The code, with the jumps' offsets, the number of instructions, and the address of the entry."""
        places, self.code, self.count = self.places(), b"", 0
        for i, part in enumerate(self.parts):
            if self.sizes[i]:
                word = self.word(part, places, places[i])
                self.code += (SHORT[word] if self.sizes[i] == 2 else word).to_bytes(self.sizes[i], "little")
                self.count += 1
        self.entry = BASE + places[str(self.start)]

    def label(self):
        self.labels += 1
        return self.labels

    def mark(self, label):
        self.parts.append(label)

    def here(self):
        label = self.label()
        self.mark(label)
        return label

    def put(self, word, *registers):
        self.parts.append((word, None))
        self.used.update(r for r in registers if r)

    def go(self, label):
        self.parts.append((jump, label))

    def branch_to(self, label, funct3, rs1, rs2):
        self.parts.append((lambda offset: branch(funct3, rs1, rs2, offset), label))
        self.used.update(r for r in (rs1, rs2) if r)

    def draw_branch(self, label):
        rs1 = self.read()
        self.branch_to(label, self.random.choice(BRANCHES), rs1, rs1 if self.random.random() < 0.1 else self.read())

    def read(self):
        """A register that is read."""
        share = self.random.random()
        if share < 0.08:
            return 0
        if share < 0.14:
            return self.random.choice([1, self.base, *self.counters])
        return self.random.choice(self.general)

    def write(self):
        """A register that is written."""
        return 0 if self.random.random() < 0.03 else self.random.choice(self.general)

    def block(self, size, depth, ways):
        """Code of about that size at that depth of loops, out of which one may go by these labels."""
        while size > 0:
            share = self.random.random()
            inner = self.random.randint(1, max(1, min(size - 1, 60)))
            if share < 0.14 and size > 3 and depth < len(TURNS):
                self.loop(inner, depth, ways)
            elif share < 0.25 and size > 2:
                self.fork(inner, depth, ways)
            elif share < (0.30 if ways else 0.26):
                inner = 1
                self.draw_branch(self.random.choice(ways) if ways and self.random.random() < 0.9 else self.end)
            elif share < 0.45 and self.may_access:
                inner = self.access()
            else:
                inner = 1
                self.compute()
            size -= inner

    def fork(self, size, depth, ways):
        """A branch over some code, and maybe some other code, behind which both ways join."""
        other, join = self.label(), self.label()
        self.draw_branch(other)
        if self.random.random() < 0.15:
            self.mark(other)
            return
        self.block(size - size // 2, depth, ways)
        if self.random.random() < 0.5 and size > 1:
            self.go(join)
            self.mark(other)
            self.block(size // 2, depth, ways)
        else:
            self.mark(other)
        self.mark(join)

    def loop(self, size, depth, ways):
        """A loop, which its counter ends after some turns. It is tested at its head or at its end."""
        counter, behind, turn = self.counters[depth], self.label(), self.label()
        register = self.random.choice(self.general)
        if self.random.random() < 0.5:
            self.put(immediate(0, counter, 0, self.random.randint(1, TURNS[depth])), counter)
        else:
            self.put(immediate(7, counter, register, TURNS[depth]), counter, register)
        head = self.here()
        out = [behind, behind, turn] + (self.random.sample(ways, 1) if ways and self.random.random() < 0.2 else [])
        is_tested_first = self.random.random() < 0.5
        if is_tested_first:
            self.branch_to(behind, 0, counter, 0)
        self.block(size, depth + 1, out)
        self.mark(turn)
        self.put(immediate(0, counter, counter, 0xFFF))
        if is_tested_first:
            self.go(head)
        else:
            self.branch_to(head, 4, 0, counter)
        self.mark(behind)

    def access(self):
        """A load or a store, at a place that is fixed or depends on a register."""
        self.has_memory = True
        low, high, address, count = -REACH, REACH, self.base, 1
        if self.random.random() < 0.5:
            index, address, count = self.read(), self.random.choice(self.general), 3
            self.put(immediate(7, address, index, 63), address, index)
            self.put(arithmetic(0, 0, address, address, self.base), address, self.base)
            high -= 63
        if self.random.random() < 0.5:
            funct3, width = self.random.choice(LOADS)
            target = self.write()
            self.put(load(funct3, target, address, self.random.randint(low, high - width) & 0xFFF), target, address)
        else:
            funct3, width = self.random.choice(STORES)
            source = self.read()
            self.put(store(funct3, source, address, self.random.randint(low, high - width) & 0xFFF), source, address)
        return count

    def compute(self):
        """An instruction that neither branches nor touches memory."""
        if self.random.random() < 0.4:
            self.compute_short()
            return
        kind = self.random.randrange(9)
        in_words = IN_WORDS if kind % 2 else 0
        rd, rs1, rs2 = self.write(), self.read(), self.read()
        if kind < 4:
            funct7, funct3 = self.random.choice(WORD_OPERATIONS if in_words else OPERATIONS)
            self.put(arithmetic(funct7, funct3, rd, rs1, rs2) | in_words, rd, rs1, rs2)
        elif kind < 6:
            funct3 = 0 if in_words else self.random.choice(IMMEDIATES)
            self.put(immediate(funct3, rd, rs1, self.random.randrange(4096)) | in_words, rd, rs1)
        elif kind < 8:
            funct3, high = self.random.choice(SHIFTS)
            self.put(immediate(funct3, rd, rs1, high | self.random.randrange(32 if in_words else 64)) | in_words, rd, rs1)
        elif self.random.random() < 0.2:
            self.put(FENCE)
        else:
            self.put(upper(self.random.choice((0x37, 0x17)), rd, self.random.randrange(1 << 20)), rd)

    def compute_short(self):
        """An instruction of a form for which two bytes can stand, if its registers fit."""
        rd, other, small = self.write(), self.read(), self.random.randint(-32, 31) & 0xFFF
        in_words, count = self.random.choice((0, IN_WORDS)), self.random.randrange(64)
        word = self.random.choice(
            (
                immediate(0, rd, rd, small) | in_words,
                immediate(0, rd, 0, small),
                upper(0x37, rd, self.random.randint(-32, 31) & 0xFFFFF),
                immediate(1, rd, rd, count),
                immediate(5, rd, rd, count | self.random.choice((0, 0x400))),
                immediate(7, rd, rd, small),
                arithmetic(0, 0, rd, rd, other) | in_words,
                arithmetic(32, 0, rd, rd, other) | in_words,
                arithmetic(0, self.random.choice((4, 6, 7)), rd, rd, other),
                arithmetic(0, 0, rd, 0, other),
            )
        )
        sources = {0x13: [word >> 15 & 31], 0x33: [word >> 15 & 31, word >> 20 & 31]}.get(word & 0x77, [])
        self.put(word, rd, *sources)

    def draw_word(self):
        """The value of a register: a small one, one at an edge, or any."""
        kind = self.random.randrange(3)
        if kind == 0:
            return self.random.randrange(16)
        return self.random.choice(EDGES) if kind == 1 else self.random.randrange(1 << 64)
